% A nonogram of nine rows and eight columns: the numbers of a row or a column are the lengths of its black runs, in
% their order. It is the one of Werner Hett's list of Prolog problems.
% Run it: clpfd < examples/nonogram.pl
% 1 answer, the picture that is printed with the puzzle.
% It shows a drawing by `write` and `nl`, and cells that are truth values: a cell is black where some run of its row,
% and some run of its column, covers it.

rows([[3], [2,1], [3,2], [2,2], [6], [1,5], [6], [1], [2]]).
columns([[1,2], [3,1], [1,5], [7,1], [5], [3], [4], [3]]).

% a line of cells with the runs of these lengths; Starts has the place at which each run begins
line(Lengths, Cells, Size, Starts) :- runs(Lengths, 1, Size, Starts), covered(Cells, 1, Lengths, Starts).

runs([], _, _, []).
runs([Length|Lengths], First, Size, [S|Starts]) :-
    S in 1..Size, S #>= First, S + Length #=< Size + 1, runs(Lengths, S + Length + 1, Size, Starts).

covered([], _, _, _).
covered([Cell|Cells], Place, Lengths, Starts) :-
    cover(Lengths, Starts, Place, Cover), Cell #= Cover, Next is Place + 1, covered(Cells, Next, Lengths, Starts).

cover([], [], _, 0).
cover([Length|Lengths], [S|Starts], Place, Covers + Rest) :-
    Begun #<=> S #=< Place, Going #<=> S + Length #> Place, fd_and(Begun, Going, Covers),
    cover(Lengths, Starts, Place, Rest).

lines([], [], _, []).
lines([Lengths|More], [Cells|Grid], Size, Places) :-
    line(Lengths, Cells, Size, Starts), lines(More, Grid, Size, Others), append(Starts, Others, Places).

append([], Ys, Ys).
append([X|Xs], Ys, [X|Zs]) :- append(Xs, Ys, Zs).

% a grid of open cells, and its columns
grid(0, _, []).
grid(Rows, Width, [Row|Grid]) :- Rows > 0, cells(Width, Row), Others is Rows - 1, grid(Others, Width, Grid).

cells(0, []).
cells(N, [_|Cells]) :- N > 0, M is N - 1, cells(M, Cells).

turned([[]|_], []).
turned([[X|Xs]|Rows], [[X|Heads]|Columns]) :- heads(Rows, Heads, Tails), turned([Xs|Tails], Columns).

heads([], [], []).
heads([[X|Xs]|Rows], [X|Heads], [Xs|Tails]) :- heads(Rows, Heads, Tails).

drawn([]).
drawn([Row|Grid]) :- drawn_row(Row), nl, drawn(Grid).

drawn_row([]).
drawn_row([1|Cells]) :- write('##'), drawn_row(Cells).
drawn_row([0|Cells]) :- write('. '), drawn_row(Cells).

?- rows(_Rows), columns(_Columns), grid(9, 8, _Grid), turned(_Grid, _Turned),
   lines(_Rows, _Grid, 8, _Across), lines(_Columns, _Turned, 9, _Down),
   append(_Across, _Down, _All), fd_labeling(_All), drawn(_Grid).
