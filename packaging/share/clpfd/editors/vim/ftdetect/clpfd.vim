" Texts of clpfd end in .pl, as those of Prolog and Perl do, so only .clpfd is known by its name.
autocmd BufRead,BufNewFile *.clpfd setfiletype clpfd
