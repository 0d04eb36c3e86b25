% Domains, sums and counts of lists, for models: cat library/sums.pl model.pl | clpfd
% All names begin with fdl_, so that a model's own names can't meet them. docs/LIBRARY.md has a line for each. It needs no
% other file.

% fdl_domain(List, Low, High): each member lies between Low and High.
fdl_domain([], _, _).
fdl_domain([X|Xs], Low, High) :- X in Low..High, fdl_domain(Xs, Low, High).

% fdl_domains(Rows, Low, High): so does each member of each row.
fdl_domains([], _, _).
fdl_domains([Row|Rows], Low, High) :- fdl_domain(Row, Low, High), fdl_domains(Rows, Low, High).

% fdl_sum(List, Sum): the members have this sum.
fdl_sum(Xs, Sum) :- fdl_sum_term(Xs, Term), Sum #= Term.

% fdl_sum_term(List, Term): the term of the sum, for a constraint: fdl_sum_term(L, T), T #=< 10
fdl_sum_term([], 0).
fdl_sum_term([X|Xs], Term) :- fdl_sum_behind(Xs, X, Term).

fdl_sum_behind([], Term, Term).
fdl_sum_behind([X|Xs], Before, Term) :- fdl_sum_behind(Xs, Before + X, Term).

% fdl_weighted_sum(Weights, List, Sum): each member times its weight, an integer, has this sum.
fdl_weighted_sum(Weights, Xs, Sum) :- fdl_weighted_term(Weights, Xs, Term), Sum #= Term.

% fdl_weighted_term(Weights, List, Term): the term of that sum.
fdl_weighted_term([], [], 0).
fdl_weighted_term([W|Ws], [X|Xs], Term) :- fdl_weighted_behind(Ws, Xs, W*X, Term).

fdl_weighted_behind([], [], Term, Term).
fdl_weighted_behind([W|Ws], [X|Xs], Before, Term) :- fdl_weighted_behind(Ws, Xs, Before + W*X, Term).

% fdl_equal_to(Value, List, Truths): for each member whether it has this value, an integer: 1 or 0.
fdl_equal_to(_, [], []).
fdl_equal_to(Value, [X|Xs], [B|Bs]) :- B #<=> X #= Value, fdl_equal_to(Value, Xs, Bs).

% fdl_count(Value, List, Number): so many members have this value.
fdl_count(Value, Xs, Number) :- fdl_equal_to(Value, Xs, Bs), fdl_sum(Bs, Number).

% fdl_exactly(Number, List, Value): just so many members have this value. (fd_atmost says 'at most'.)
fdl_exactly(Number, Xs, Value) :- fdl_equal_to(Value, Xs, Bs), fdl_sum_term(Bs, Term), Term #= Number.

% fdl_at_least(Number, List, Value): so many members or more have this value.
fdl_at_least(Number, Xs, Value) :- fdl_equal_to(Value, Xs, Bs), fdl_sum_term(Bs, Term), Term #>= Number.

% fdl_rows_different(Rows): the members of each row are different.
fdl_rows_different([]).
fdl_rows_different([Row|Rows]) :- fd_all_different(Row), fdl_rows_different(Rows).

% fdl_rising(List): each member is less than the next one.
fdl_rising([]).
fdl_rising([X|Xs]) :- fdl_rising_behind(Xs, X).

fdl_rising_behind([], _).
fdl_rising_behind([Y|Ys], X) :- X #< Y, fdl_rising_behind(Ys, Y).
