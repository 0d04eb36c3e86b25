% Predicates on lists, for models: cat library/lists.pl model.pl | clpfd
% All names begin with fdl_, so that a model's own names can't meet them. docs/LIBRARY.md has a line for each.

% fdl_length(List, Number): the number of members of a list, or a list of a known number of variables.
fdl_length(List, Number) :- integer(Number), fdl_made(List, Number).
fdl_length(List, Number) :- var(Number), fdl_counted(List, 0, Number).

fdl_made([], 0).
fdl_made([_|Xs], Number) :- Number > 0, Others is Number - 1, fdl_made(Xs, Others).

fdl_counted([], Number, Number).
fdl_counted([_|Xs], Before, Number) :- Next is Before + 1, fdl_counted(Xs, Next, Number).

% fdl_append(Front, Back, Whole)
fdl_append([], Ys, Ys).
fdl_append([X|Xs], Ys, [X|Zs]) :- fdl_append(Xs, Ys, Zs).

% fdl_concat(Lists, Whole): the members of all lists, one list behind the other.
fdl_concat([], []).
fdl_concat([Xs|Lists], Whole) :- fdl_append(Xs, Rest, Whole), fdl_concat(Lists, Rest).

% fdl_member(X, List): each member, one after the other.
fdl_member(X, [X|_]).
fdl_member(X, [_|Xs]) :- fdl_member(X, Xs).

% fdl_select(X, List, Others): each member, with the list without it.
fdl_select(X, [X|Xs], Xs).
fdl_select(X, [Y|Ys], [Y|Zs]) :- fdl_select(X, Ys, Zs).

% fdl_between(Low, High, X): the integers from Low to High, one after the other.
fdl_between(Low, High, Low) :- Low =< High.
fdl_between(Low, High, X) :- Low < High, Next is Low + 1, fdl_between(Next, High, X).

% fdl_reverse(List, Reversed)
fdl_reverse(Xs, Ys) :- fdl_reversed(Xs, [], Ys).

fdl_reversed([], Ys, Ys).
fdl_reversed([X|Xs], Before, Ys) :- fdl_reversed(Xs, [X|Before], Ys).

% fdl_nth(Place, List, X): X stands at this place, counted from 1.
fdl_nth(1, [X|_], X) :- !.
fdl_nth(Place, [_|Xs], X) :- Place > 1, Before is Place - 1, fdl_nth(Before, Xs, X).

% fdl_last(List, X): X is the last member.
fdl_last([X], X) :- !.
fdl_last([_|Xs], X) :- fdl_last(Xs, X).

% fdl_rows(Number, Width, Rows): so many lists of Width variables each.
fdl_rows(0, _, []) :- !.
fdl_rows(Number, Width, [Row|Rows]) :-
    Number > 0, fdl_made(Row, Width), Others is Number - 1, fdl_rows(Others, Width, Rows).

% fdl_columns(Rows, Columns): the columns of rows of one length.
fdl_columns([[]|_], []) :- !.
fdl_columns(Rows, [Heads|Columns]) :- fdl_heads(Rows, Heads, Tails), fdl_columns(Tails, Columns).

fdl_heads([], [], []).
fdl_heads([[X|Xs]|Rows], [X|Heads], [Xs|Tails]) :- fdl_heads(Rows, Heads, Tails).

% fdl_print_table(Rows): each row on a line of its own, with a space between its members.
fdl_print_table([]).
fdl_print_table([Row|Rows]) :- fdl_print_row(Row), nl, fdl_print_table(Rows).

fdl_print_row([]).
fdl_print_row([X|Xs]) :- write(X), fdl_print_more(Xs).

fdl_print_more([]).
fdl_print_more([X|Xs]) :- write(' '), write(X), fdl_print_more(Xs).
