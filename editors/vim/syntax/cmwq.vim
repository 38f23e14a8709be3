" Scenarios of cmwq. Copy the folders beside this one into ~/.vim.
if exists('b:current_syntax')
  finish
endif
setlocal iskeyword=@,48-57,_
setlocal commentstring=#\ %s

syntax match cmwqNumber /\%(^\|\s\)\@1<=\d\+\ze\%(\s\|#\|$\)/
syntax match cmwqTimes /\%(^\|\s\)\@1<=\*\ze\%(\s\|#\|$\)/
syntax match cmwqHead /^\s*\%(cpus\|workers\|steps\|flushes\)\ze\%(\s\|#\|$\)/
syntax match cmwqDeclaration /^\s*\%(queue\|work\|body\|actor\)\ze\%(\s\|#\|$\)/
" An operation `delay`, `mod` or `cancel` of a body has the colour of the actors' instruction of its name.
syntax match cmwqOperation /^\s*\%(burn\|sleep\|finish\)\ze\%(\s\|#\|$\)/
syntax match cmwqInstruction /^\s*\%(delay\|mod\|cancel\|cancel_sync\|disable\|enable\|flush\|flush_delayed\|flush_queue\|set_max\|freeze\|thaw\|fire\|step\|tick\|next\|until\|wait\|quiet\|ask\|busy\|state\|pressure\|relief\)\ze\%(\s\|#\|$\)/
syntax keyword cmwqFlag max highpri unbound cpu_intensive freezable ordered mem_reclaim contained
syntax match cmwqQueueLine /^\s*queue\s.*\smax\s[^#]*/ contains=cmwqDeclaration,cmwqFlag,cmwqNumber
syntax match cmwqComment /#.*$/ contains=@Spell

highlight default link cmwqNumber Number
highlight default link cmwqTimes Operator
highlight default link cmwqHead PreProc
highlight default link cmwqDeclaration Type
highlight default link cmwqOperation Statement
highlight default link cmwqInstruction Function
highlight default link cmwqFlag Keyword
highlight default link cmwqComment Comment

let b:current_syntax = 'cmwq'
