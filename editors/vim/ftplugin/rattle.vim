setlocal commentstring=//\ %s
setlocal errorformat=./%f:%l:%c:\ error:\ %m,%f:%l:%c:\ error:\ %m
