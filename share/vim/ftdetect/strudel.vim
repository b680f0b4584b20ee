" Files of Strudel: queries, templates, data texts and constraints.
autocmd BufNewFile,BufRead *.struql set filetype=struql
autocmd BufNewFile,BufRead *.tmpl set filetype=strudeltmpl
autocmd BufNewFile,BufRead *.ddl set filetype=strudeldata
autocmd BufNewFile,BufRead *.constraints,constraints.txt set filetype=strudelconstraints
