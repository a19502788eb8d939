setlocal commentstring=--\ %s
setlocal errorformat=./%f:%l:%c:\ error:\ %m,%f:%l:%c:\ error:\ %m
" names have - and + in them, as returns-clause-exact
setlocal iskeyword+=-
