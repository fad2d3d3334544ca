" Colours for the scripts of storage_tool.
if exists("b:current_syntax")
  finish
endif

syntax case match

" Whatever no rule below knows is wrong: a tab, a carriage return, a word that no line begins with.
syntax match scriptUnknown /^ *[^ #][^ ]*/
syntax match scriptTab /[\t\r]/

syntax match scriptComment /^ *#.*$/

" A first word, and the words that may follow it.
syntax match scriptHead /^ *\(storage\|patience\|own\|log\|close\|end\)\ze\( \|$\)/
syntax match scriptBatch /^ *\(batch\|life\)\ze\( \|$\)/
syntax match scriptMutation /^ *\(set\|clear\|add\|and\|or\|xor\|max\|min\|byte_min\|byte_max\|append\|compare_and_clear\)\ze\( \|$\)/ nextgroup=scriptOdd,scriptBytes skipwhite
syntax match scriptAsk /^ *\(ask\|last\)\ze\( \|$\)/
syntax match scriptDo /^ *do\ze\( \|$\)/
" Words of lines that aren't played yet.
syntax match scriptLater /^ *\(window\|seed\|swap\|limit\|quota\|block\|watches\|assign\|drop\|cut\|peerfail\|kill\)\ze\( \|$\)/

syntax match scriptWord / \zs\(get\|range\|key\|fwd\|rev\|eq\|ne\|apply\|poll\)\ze\( \|$\)/
syntax match scriptVersion / \zs@\d\{1,20}\ze\( \|$\)/
" Two hex digits make a byte, and all else is wrong.
syntax match scriptOdd /[^ ]\+/ contained nextgroup=scriptOdd,scriptBytes skipwhite
syntax match scriptBytes /\(\([0-9a-fA-F]\{2}\)\+\|-\)\ze\( \|$\)/ contained nextgroup=scriptOdd,scriptBytes skipwhite

highlight default link scriptUnknown Error
highlight default link scriptTab Error
highlight default link scriptOdd Error
highlight default link scriptComment Comment
highlight default link scriptHead PreProc
highlight default link scriptBatch Statement
highlight default link scriptMutation Function
highlight default link scriptAsk Keyword
highlight default link scriptDo Keyword
highlight default link scriptLater Todo
highlight default link scriptWord Type
highlight default link scriptVersion Constant
highlight default link scriptBytes String

let b:current_syntax = "repquartz"
