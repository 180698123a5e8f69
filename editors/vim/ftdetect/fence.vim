" Files that end in .fence are scenarios of fence.
autocmd BufNewFile,BufRead *.fence setfiletype fence
