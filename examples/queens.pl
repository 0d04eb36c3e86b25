% N queens: one queen in each column, none on the row or a diagonal of another one.
% Run it: clpfd < examples/queens.pl
% 4 answers for 6 queens, 92 for 8 (the published counts).
% It shows a list of variables made by a clause, and constraints posted by another one that walks over it.
% The n-th number of an answer is the row of the queen in the n-th column.

board(0, _, []).
board(Columns, Rows, [Queen|Queens]) :-
    Columns > 0, Queen in 1..Rows,
    Others is Columns - 1, board(Others, Rows, Queens).

peace([]).
peace([Queen|Queens]) :- apart(Queen, Queens, 1), peace(Queens).

apart(_, [], _).
apart(Queen, [Other|Others], Distance) :-
    Queen #\= Other, Queen #\= Other + Distance, Queen #\= Other - Distance,
    Further is Distance + 1, apart(Queen, Others, Further).

?- board(6, 6, Queens), peace(Queens), fd_labeling(Queens).
?- board(8, 8, Queens), peace(Queens), fd_labeling(Queens).
