" A script of hipc: tasks, wires and operations; and the lines that give names, which tools/asm reads.
if exists('b:current_syntax')
  finish
endif
syntax case match
syntax iskeyword @,48-57,_
syntax match hipcComment /#.*$/
syntax match hipcBadByte /[^\x20-\x7e\t]/
syntax match hipcUnknown /^\s*\zs[^ \t#]\+/
" made by tools/words: structure
syntax match hipcStructure /^\s*\zs\(ns\|task\|template\|fibril\|connection\|wire\)\>/
" made by tools/words: operations
syntax match hipcOperation /^\s*\zs\(call\|receive\|answer\|forward\|hangup\|area\|unarea\|poke\|peek\|set\|jump\|jumpeq\|jumpne\|wait\|next\|yield\|send\|open\|begin\|end\|close\)\>/
syntax match hipcNamed /^\s*\zs\([a-z][a-z0-9_]*:\ze\s*\(#\|$\)\|let\>\)/
" made by tools/words: kinds and modes
syntax keyword hipcKind raw async block plain route atomic serialize parallel
syntax match hipcRegister /\<r\([12]\?[0-9]\|3[01]\)\>/
syntax match hipcNumber /\<\([0-9]\{1,20\}\|0x[0-9A-Fa-f]\{1,16\}\)\>/
syntax match hipcBytes /\(^\s*poke\s\+\S\+\s\+\)\@<=\(\x\x\)\{1,64\}\ze\(\s\|#\|$\)/
" made by tools/words: methods
syntax keyword hipcMethod PHONE_HUNGUP CONNECT_TO_ME CONNECT_ME_TO DATA_WRITE DATA_READ SHARE_OUT SHARE_IN
" made by tools/words: codes
syntax keyword hipcCode EOK ENOENT EPERM EEXIST EINVAL ELIMIT EHANGUP EFORWARD EBUSY ENOMEM
" made by tools/words: rights and flags
syntax keyword hipcRights R W RW RESTRICT

highlight default link hipcComment Comment
highlight default link hipcBadByte Error
highlight default link hipcUnknown Error
highlight default link hipcStructure Structure
highlight default link hipcOperation Statement
highlight default link hipcNamed Label
highlight default link hipcKind Type
highlight default link hipcRegister Identifier
highlight default link hipcNumber Number
highlight default link hipcBytes String
highlight default link hipcMethod Constant
highlight default link hipcCode Constant
highlight default link hipcRights Constant
let b:current_syntax = 'hipcscript'
