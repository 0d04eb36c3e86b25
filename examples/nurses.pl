% A soft roster: five nurses, a week, and each day one early, one late and one night shift. Behind a night a nurse is off
% or has the next night too, and nobody has more than two nights or more than three days off. Twelve wishes have
% weights, and what can't be kept is to weigh as little as can be.
% Run it: clpfd < examples/nurses.pl
% It shows a wish as a truth value, and what to label first: the cost, then the wishes, then the weeks. With the weeks in
% front of the wishes the same search takes a thousand times as long.

% the n-th number of a week is the n-th day from Monday on: 0 off, 1 early, 2 late, 3 night
week([], 0).
week([Shift|Week], Days) :- Days > 0, Shift in 0..3, Others is Days - 1, week(Week, Others).

rested([_]).
rested([Today,Tomorrow|Week]) :-
    Night #<=> Today #= 3, Early #<=> Tomorrow #= 1, Late #<=> Tomorrow #= 2,
    Night + Early + Late #=< 1, rested([Tomorrow|Week]).

works(Week) :- week(Week, 7), rested(Week), fd_atmost(2, Week, 3), fd_atmost(3, Week, 0).

all_work([]).
all_work([Week|Weeks]) :- works(Week), all_work(Weeks).

% each day at most one of each shift and two off: together that is five, so it is exactly so many
staffed([]).
staffed([Day|Days]) :-
    fd_atmost(1, Day, 1), fd_atmost(1, Day, 2), fd_atmost(1, Day, 3), fd_atmost(2, Day, 0), staffed(Days).

% the days' columns of the weeks' rows
columns([[]|_], []).
columns([[X|Xs]|Rows], [[X|Heads]|Columns]) :- heads(Rows, Heads, Tails), columns([Xs|Tails], Columns).

heads([], [], []).
heads([[X|Xs]|Rows], [X|Heads], [Xs|Tails]) :- heads(Rows, Heads, Tails).

% shift(Nurse, Day, Shift, Weight): the nurse would like to have this shift; no_shift(..): not to have it
wishes([shift(1,6,0,4), shift(1,7,0,4), shift(2,3,0,3), shift(2,4,0,2), shift(3,5,1,2), shift(3,6,0,5),
        shift(4,6,0,4), shift(4,7,0,3), shift(5,6,0,2), no_shift(5,7,3,1), shift(2,7,0,2), no_shift(3,1,3,1)]).

broken([], _, [], 0).
broken([shift(N,D,S,W)|Wishes], Weeks, [B|Bs], W*B + Cost) :-
    nth(N, Weeks, Week), nth(D, Week, X), B #<=> X #\= S, broken(Wishes, Weeks, Bs, Cost).
broken([no_shift(N,D,S,W)|Wishes], Weeks, [B|Bs], W*B + Cost) :-
    nth(N, Weeks, Week), nth(D, Week, X), B #<=> X #= S, broken(Wishes, Weeks, Bs, Cost).

nth(1, [X|_], X) :- !.
nth(N, [_|Xs], X) :- M is N - 1, nth(M, Xs, X).

append([], Ys, Ys).
append([X|Xs], Ys, [X|Zs]) :- append(Xs, Ys, Zs).

joined([], []).
joined([Xs|Xss], Zs) :- joined(Xss, Ys), append(Xs, Ys, Zs).

?- _Weeks = [Ann,Ben,Cleo,Dan,Eve], all_work(_Weeks), columns(_Weeks, _Days), staffed(_Days),
   wishes(_Wishes), broken(_Wishes, _Weeks, Broken, _Sum), Cost #= _Sum,
   joined(_Weeks, _Shifts), append([Cost|Broken], _Shifts, _All), fd_minimize(fd_labeling(_All), Cost).
