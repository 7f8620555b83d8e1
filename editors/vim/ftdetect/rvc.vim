autocmd BufNewFile,BufRead *.rv setfiletype rvc
