" A schedule of hipc: whose turn it is, and which task is killed.
if exists('b:current_syntax')
  finish
endif
syntax case match
syntax iskeyword @,48-57,_
syntax match hipcComment /#.*$/
syntax match hipcBadByte /[^\x20-\x7e\t]/
syntax match hipcUnknown /^\s*\zs[^ \t#]\+/
" made by tools/words: events but kill
syntax match hipcOperation /^\s*\zs\(step\|hangup\|spawn\)\>/
syntax match hipcKill /^\s*\zskill\>/
syntax match hipcTimes /\s\zsx\ze\s\+[0-9]/
syntax match hipcNumber /\<\([0-9]\{1,20\}\|0x[0-9A-Fa-f]\{1,16\}\)\>/

highlight default link hipcComment Comment
highlight default link hipcBadByte Error
highlight default link hipcUnknown Error
highlight default link hipcOperation Statement
highlight default link hipcKill Exception
highlight default link hipcTimes Operator
highlight default link hipcNumber Number
let b:current_syntax = 'hipcschedule'
