autocmd BufNewFile,BufRead *.afx setfiletype afx
