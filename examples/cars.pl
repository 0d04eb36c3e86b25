% Car sequencing: ten cars of six kinds on a line. Five stations fit options; a station that can serve
% at most M of any N cars in a row says so. How many of each kind are wanted, and which options a kind has:
%   kind           1 2 3 4 5 6
%   wanted         1 1 2 2 2 2
%   option 1       1 0 0 0 1 1   at most 1 of 2 in a row
%   option 2       0 0 1 1 0 1   at most 2 of 3
%   option 3       1 0 0 0 1 0   at most 1 of 3
%   option 4       1 1 0 1 0 0   at most 2 of 5
%   option 5       0 0 1 0 0 0   at most 1 of 5
% Run it: clpfd < examples/cars.pl
% 6 answers, the published count.
% It shows counting by fd_atmost: over the whole line for each kind (at most as many as wanted of each
% is exactly as many, since the line has ten places), and over each window of N neighbours for an option.

line([], 0).
line([Kind|Kinds], Places) :-
    Places > 0, Kind in 1..6, Others is Places - 1, line(Kinds, Others).

wanted(Line) :-
    fd_atmost(1, Line, 1), fd_atmost(1, Line, 2), fd_atmost(2, Line, 3),
    fd_atmost(2, Line, 4), fd_atmost(2, Line, 5), fd_atmost(2, Line, 6).

% fitted(Line, Table, Fitted): Fitted has a 1 where the kind has the option by its table, and else a 0.
fitted([], _, []).
fitted([Kind|Kinds], Table, [Has|Fitted]) :- fd_element(Kind, Table, Has), fitted(Kinds, Table, Fitted).

% front(N, List, Front): Front has the first N members of List.
front(0, _, []).
front(N, [X|Xs], [X|Front]) :- N > 0, M is N - 1, front(M, Xs, Front).

% windows(M, N, Places, Fitted): of any N neighbours among the Places numbers, at most M are 1.
windows(_, N, Places, _) :- Places < N.
windows(M, N, Places, [Has|Fitted]) :-
    Places >= N, front(N, [Has|Fitted], Window), fd_atmost(M, Window, 1),
    Others is Places - 1, windows(M, N, Others, Fitted).

option(Line, Table, M, N) :- fitted(Line, Table, Fitted), windows(M, N, 10, Fitted).

?- line(Line, 10), wanted(Line),
   option(Line, [1,0,0,0,1,1], 1, 2),
   option(Line, [0,0,1,1,0,1], 2, 3),
   option(Line, [1,0,0,0,1,0], 1, 3),
   option(Line, [1,1,0,1,0,0], 2, 5),
   option(Line, [0,0,1,0,0,0], 1, 5),
   fd_labeling(Line).
