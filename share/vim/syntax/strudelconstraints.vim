" Constraints on the sites of Strudel's queries.
if exists("b:current_syntax") | finish | endif
syntax keyword strudelconstraintsKind REACHABLE EACH ONLY NONE ONE
syntax keyword strudelconstraintsWord FROM LINKS TO
syntax match strudelconstraintsEscape contained "\\[\"\\nrt]"
syntax region strudelconstraintsText start=+"+ skip=+\\.+ end=+"+ contains=strudelconstraintsEscape
syntax match strudelconstraintsComment "//.*$"
highlight default link strudelconstraintsKind Statement
highlight default link strudelconstraintsWord Operator
highlight default link strudelconstraintsEscape SpecialChar
highlight default link strudelconstraintsText String
highlight default link strudelconstraintsComment Comment
let b:current_syntax = "strudelconstraints"
