" Strudel's data texts.
if exists("b:current_syntax") | finish | endif
syntax keyword strudeldataKeyword object collection
syntax keyword strudeldataIn in
syntax keyword strudeldataKind text url file
syntax match strudeldataReference "&[A-Za-z_][A-Za-z0-9_]*"
syntax match strudeldataReference +&\ze"+
syntax match strudeldataNumber "-\?\<[0-9]\+\>"
syntax match strudeldataEscape contained "\\[\"\\nrt]"
syntax region strudeldataText start=+"+ skip=+\\.+ end=+"+ contains=strudeldataEscape
syntax match strudeldataComment "//.*$"
highlight default link strudeldataKeyword Statement
highlight default link strudeldataIn Statement
highlight default link strudeldataKind Type
highlight default link strudeldataReference Identifier
highlight default link strudeldataNumber Number
highlight default link strudeldataEscape SpecialChar
highlight default link strudeldataText String
highlight default link strudeldataComment Comment
let b:current_syntax = "strudeldata"
