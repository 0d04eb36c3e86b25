" Vim syntax file: clpfd, Prolog with finite-domain constraints
if exists('b:current_syntax')
  finish
endif

syn case match

syn match   clpfdComment   '%.*$' contains=clpfdTodo
syn region  clpfdComment   start='/\*' end='\*/' contains=clpfdTodo
syn keyword clpfdTodo      TODO XXX FIXME contained

syn match   clpfdVariable  '\<[A-Z_][A-Za-z0-9_]*\>'
syn match   clpfdNumber    '\<\d\+\>'
syn match   clpfdNumber    '\<0x\x\+\>\|\<0o\o\+\>\|\<0b[01]\+\>'
syn region  clpfdQuoted    start="'" skip="\\\\\|\\'\|''" end="'" oneline contains=clpfdEscape
syn match   clpfdEscape    "\\\([\\'\"ntr]\|x\x\{1,6}\\\)" contained

" Longer operators stand behind shorter ones: of matches at one place the last wins.
syn match   clpfdOperator  '[-+*/&:<>=]'
syn match   clpfdOperator  '\.\.\|/<\|/>\|//\|=<\|>=\|==\|\\==\|=:=\|=\\=\|\\+\|->'
syn match   clpfdRelation  '#=\|#\\=\|#<\|#>\|#=<\|#>='
syn match   clpfdRelation  '#<=>'
syn match   clpfdClause    ':-\|?-'
syn match   clpfdCut       '!'
syn keyword clpfdWord      in is mod
syn match   clpfdFeature   '\<\(min\|max\|dom\|val\)\ze('
syn keyword clpfdFeature   infinity
syn keyword clpfdBuiltin   true fail false var nonvar integer atom atomic compound write nl
syn keyword clpfdBuiltin   fd_min fd_max fd_size fd_dom
syn keyword clpfdConstraint fd_all_different fd_element fd_atmost fd_and fd_or fd_not
syn keyword clpfdConstraint fd_labeling fd_labelingff fd_minimize fd_maximize

hi def link clpfdComment    Comment
hi def link clpfdTodo       Todo
hi def link clpfdVariable   Identifier
hi def link clpfdNumber     Number
hi def link clpfdQuoted     String
hi def link clpfdEscape     SpecialChar
hi def link clpfdOperator   Operator
hi def link clpfdRelation   Operator
hi def link clpfdClause     PreProc
hi def link clpfdCut        Special
hi def link clpfdWord       Keyword
hi def link clpfdFeature    Type
hi def link clpfdBuiltin    Function
hi def link clpfdConstraint Statement

let b:current_syntax = 'clpfd'
