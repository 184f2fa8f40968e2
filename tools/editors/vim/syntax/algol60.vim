" ALGOL 60 as gier reads it, in both spellings: _begin and 'BEGIN'. It colours symbols and knows no structure.
" tests/editors compares its words with those of the compiler.
if exists("b:current_syntax")
  finish
endif

syn case match
syn sync fromstart

" A word of neither spelling.
syn match algolError /_\l*/
syn match algolError /'\u*'\=/

syn match algolStatement /_\%(begin\|goto\)\l\@!/
syn match algolStatement /'\%(BEGIN\|GOTO\)'/
syn match algolConditional /_\%(if\|then\|else\)\l\@!/
syn match algolConditional /'\%(IF\|THEN\|ELSE\)'/
syn match algolRepeat /_\%(for\|step\|until\|while\|do\)\l\@!/
syn match algolRepeat /'\%(FOR\|STEP\|UNTIL\|WHILE\|DO\)'/
syn match algolType /_\%(own\|integer\|boolean\|array\|switch\|procedure\|string\|label\|value\)\l\@!/
syn match algolType /'\%(OWN\|INTEGER\|BOOLEAN\|ARRAY\|SWITCH\|PROCEDURE\|STRING\|LABEL\|VALUE\)'/
syn match algolOperator /_\%(div\|not\|and\|or\|impl\|equiv\)\l\@!/
syn match algolOperator /'\%(DIV\|NOT\|AND\|OR\|IMPL\|EQUIV\)'/
syn match algolOperator /:=\|<=\|>=\|<>\|[-+*^<=>]/
syn match algolBoolean /_\%(true\|false\)\l\@!/
syn match algolBoolean /'\%(TRUE\|FALSE\)'/

syn match algolNumber /\<\d\+\>/
syn keyword algolFunction outinteger outtext outcr outchar ininteger inchar abs sign

" Braces nest in a string. Behind an end all is a comment up to `;`, an end or an else.
syn region algolString matchgroup=algolString start=/{/ end=/}/ contains=algolBraces
syn region algolBraces matchgroup=algolString start=/{/ end=/}/ contained contains=algolBraces
syn region algolComment start=/_comment\l\@!/ end=/;/
syn region algolComment start=/'COMMENT'/ end=/;/
syn region algolEndComment matchgroup=algolStatement start=/_end\l\@!/ end=/\ze;\|\ze_end\l\@!\|\ze_else\l\@!\|\ze#/
syn region algolEndComment matchgroup=algolStatement start=/'END'/ end=/\ze;\|\ze'END'\|\ze'ELSE'\|\ze#/

" What stands behind the first # is data.
syn region algolData matchgroup=algolMark start=/#/ end=/\%$/

hi def link algolError Error
hi def link algolStatement Statement
hi def link algolConditional Conditional
hi def link algolRepeat Repeat
hi def link algolType Type
hi def link algolOperator Operator
hi def link algolBoolean Boolean
hi def link algolNumber Number
hi def link algolFunction Function
hi def link algolString String
hi def link algolBraces String
hi def link algolComment Comment
hi def link algolEndComment Comment
hi def link algolMark Special
hi def link algolData PreProc

let b:current_syntax = "algol60"
