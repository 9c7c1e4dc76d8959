autocmd BufRead,BufNewFile *.reo setfiletype reo
