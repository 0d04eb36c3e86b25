% A query for each predicate of the library, which library_tried.front puts in front of this text.
% Run it: cat library/lists.pl library/sums.pl examples/library_tried.pl | clpfd
% The answers were written down by hand.

?- fdl_length(L, 2).
?- fdl_length([a,b,c], N).
?- fdl_append(Front, Back, [a,b]).
?- fdl_concat([[a,b],[],[c]], Whole).
?- fdl_member(X, [a,b]).
?- fdl_select(X, [a,b,c], Others).
?- fdl_between(1, 3, X).
?- fdl_reverse([a,b,c], L).
?- fdl_nth(2, [a,b,c], X).
?- fdl_last([a,b,c], X).
?- fdl_rows(2, 1, Rows).
?- fdl_columns([[a,b,c],[d,e,f]], Columns).
?- fdl_print_table([[1,2],[3,4]]).
?- fdl_domain([X,Y], 2, 3).
?- fdl_domains([[X],[Y]], 0, 1).
?- fdl_domain([X,Y], 1, 2), fdl_sum([X,Y,3], 6), fd_labeling([X,Y]).
?- fdl_sum_term([X,Y,Z], Term).
?- fdl_domain([X,Y], 0, 9), fdl_weighted_sum([2,3], [X,Y], 12), fd_labeling([X,Y]).
?- fdl_weighted_term([2,3], [X,Y], Term).
?- fdl_domain([X,Y], 4, 5), fdl_equal_to(5, [X,Y], Truths), X #= 5, Y #< X.
?- fdl_count(1, [], N).
?- fdl_domain([X,Y], 1, 2), fdl_count(1, [X,Y,1], N), fd_labeling([X,Y]).
?- fdl_domain([X,Y], 1, 2), fdl_exactly(1, [X,Y], 2), fd_labeling([X,Y]).
?- fdl_domain([X,Y], 1, 2), fdl_at_least(1, [X,Y], 2), fd_labeling([X,Y]).
?- fdl_rows_different([[1,2],[1,2]]).
?- fdl_rows_different([[1,2],[1,1]]).
?- fdl_domain([X,Y], 1, 2), fdl_rising([X,Y]).
