" Highlights the script language of surge in vim: put it into ~/.vim/syntax/, and into ~/.vim/ftdetect/gvdl.vim the line
"   autocmd BufRead,BufNewFile *.gv setfiletype gvdl
if exists('b:current_syntax')
  finish
endif
setlocal iskeyword=@,48-57,_,-
syntax keyword gvdlStatement load graph nodes edges create view collection on where program run append to show order work keep as form insert remove tree aggregate
syntax keyword gvdlClause window from width step along out in both start send gather update within for rounds round greedy declared split none every auto group by phases
syntax keyword gvdlOperator and or not is absent if then else min max sum count
syntax keyword gvdlVariable src dst id value gathered outdeg edge node
syntax keyword gvdlConstant true false
syntax keyword gvdlReserved changes replay
syntax keyword gvdlProgram hops dist wcc pagerank
syntax match gvdlNumber /\<\d\+\>/
syntax region gvdlString start=/'/ skip=/''/ end=/'/
syntax region gvdlQuoted start=/"/ skip=/""/ end=/"/
syntax match gvdlComment /#.*$/
highlight default link gvdlStatement Statement
highlight default link gvdlClause Keyword
highlight default link gvdlOperator Operator
highlight default link gvdlVariable Identifier
highlight default link gvdlConstant Boolean
highlight default link gvdlReserved Error
highlight default link gvdlProgram Function
highlight default link gvdlNumber Number
highlight default link gvdlString String
highlight default link gvdlQuoted Special
highlight default link gvdlComment Comment
let b:current_syntax = 'gvdl'
