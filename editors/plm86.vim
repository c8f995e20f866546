" PL/M-86 for vim: copy to ~/.vim/syntax/plm86.vim, and docs/EDITORS.md says how files get this type.
if exists("b:current_syntax")
  finish
endif
syntax case ignore
syntax iskeyword @,48-57,_,$
syntax keyword plmStatement CALL CASE DISABLE DO ELSE ENABLE END HALT IF PROCEDURE RETURN THEN TO BY WHILE INTERRUPT
syntax keyword plmDeclare DECLARE AT BASED DATA EXTERNAL INITIAL LITERALLY PUBLIC STRUCTURE
syntax keyword plmType ADDRESS BYTE INTEGER POINTER WORD
syntax keyword plmOperator AND MOD NOT OR XOR
syntax keyword plmBuiltin LENGTH LAST SIZE LOW HIGH DOUBLE SHL SHR ROL ROR INPUT INWORD OUTPUT OUTWORD SIGNED UNSIGN
" Reserved words of Intel's language that the profile refuses.
syntax keyword plmRefused DWORD GO GOTO LABEL MINUS PLUS REAL REENTRANT SELECTOR
syntax match plmNumber "\<\d[0-9A-Za-z_$]*\>"
syntax region plmString start="'" end="'" oneline
syntax region plmComment start="/\*" end="\*/"
syntax match plmControl "^\$.*$"
highlight default link plmStatement Statement
highlight default link plmDeclare StorageClass
highlight default link plmType Type
highlight default link plmOperator Operator
highlight default link plmBuiltin Function
highlight default link plmRefused Error
highlight default link plmNumber Number
highlight default link plmString String
highlight default link plmComment Comment
highlight default link plmControl PreProc
let b:current_syntax = "plm86"
