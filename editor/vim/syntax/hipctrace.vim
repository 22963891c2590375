" A trace of hipc: heads, effects and outcomes.
if exists('b:current_syntax')
  finish
endif
syntax case match
syntax iskeyword @,48-57,_
" made by tools/words: outcomes
syntax match hipcOutcome /^  =\( \(call\|received\|answer\|EMPTY\|bytes\)\)\?/
" made by tools/words: effects
syntax keyword hipcEffect accepted received forwarded answered delivered dropped free connecting connected area write sent gets blocks starts ends refused begins drops
" made by tools/words: ends
syntax keyword hipcEnd vanished forgotten hungup slammed unarea
" made by tools/words: words between
syntax keyword hipcWord plain route from slot begin answer mutex phone message exchange atomic session serialize parallel method to back label by kernel store
syntax match hipcTask /\<t[0-9]\+\([./][0-9]\+\)\?\>/
syntax match hipcNumber /\<[0-9]\{1,20\}\>/
syntax match hipcBytes /\(^t[0-9]\+ poke [0-9]\+ \|^  = bytes \)\@<=\(\x\+\|-\)$/
" made by tools/words: requests
syntax match hipcHead /^t[0-9]\+ \(call\|receive\|answer\|forward\|hangup\|area\|unarea\|poke\|peek\|nothing\)\>/ contains=hipcTask
syntax match hipcHead /^spawn\ze t[0-9]\+$/
syntax match hipcKill /^kill t[0-9]\+$/
syntax match hipcEnded /^t[0-9]\+ ended$/
" made by tools/words: codes
syntax keyword hipcCode EOK ENOENT EPERM EEXIST EINVAL ELIMIT EHANGUP EFORWARD EBUSY ENOMEM

highlight default link hipcHead Statement
highlight default link hipcKill Exception
highlight default link hipcEnded Exception
highlight default link hipcOutcome Special
highlight default link hipcEffect Type
highlight default link hipcEnd WarningMsg
highlight default link hipcWord Keyword
highlight default link hipcTask Identifier
highlight default link hipcNumber Number
highlight default link hipcBytes String
highlight default link hipcCode Constant
let b:current_syntax = 'hipctrace'
