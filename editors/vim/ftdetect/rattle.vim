" Files of Rattle: sources with contracts, and definitions and proofs.
autocmd BufNewFile,BufRead *.rt setfiletype rattle
autocmd BufNewFile,BufRead *.antt setfiletype antt
" Wrong bodies, in crates/*/wrong
autocmd BufNewFile,BufRead */wrong/*.edit setfiletype rattle_edit
