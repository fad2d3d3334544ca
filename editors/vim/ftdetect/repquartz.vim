" Scripts of storage_tool are files named *.script.
autocmd BufRead,BufNewFile *.script setfiletype repquartz
