" Written by ./check --draw from the tables of docs/LANGUAGE.md.
autocmd BufRead,BufNewFile *.conc setfiletype conc
