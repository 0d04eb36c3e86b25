% A sudoku of four by four cells, and which of its clues can be left out.
% Run it: clpfd < examples/clues.pl
% 1 answer, and 2 of the 6 clues follow from the five others, counted by going through all 288 such squares in
% another language.
% It shows \+ over a whole model: a clue can be left out where the others have no solution with another digit in
% its cell. What a negation tries is undone, so the cells are open again for the next clue. The cut in `at` says
% that a cell is found once.

digits([]).
digits([Cell|Cells]) :- Cell in 1..4, digits(Cells).

sudoku([A,B,C,D, E,F,G,H, I,J,K,L, M,N,O,P]) :-
    digits([A,B,C,D, E,F,G,H, I,J,K,L, M,N,O,P]),
    fd_all_different([A,B,C,D]), fd_all_different([E,F,G,H]),
    fd_all_different([I,J,K,L]), fd_all_different([M,N,O,P]),
    fd_all_different([A,E,I,M]), fd_all_different([B,F,J,N]),
    fd_all_different([C,G,K,O]), fd_all_different([D,H,L,P]),
    fd_all_different([A,B,E,F]), fd_all_different([C,D,G,H]),
    fd_all_different([I,J,M,N]), fd_all_different([K,L,O,P]).

clues([clue(4,4), clue(10,2), clue(11,4), clue(12,1), clue(14,1), clue(16,3)]).

at(1, [Cell|_], Cell) :- !.
at(Place, [_|Cells], Cell) :- Before is Place - 1, at(Before, Cells, Cell).

put([], _).
put([clue(Place,Digit)|Clues], Cells) :- at(Place, Cells, Digit), put(Clues, Cells).

without(Clue, [Clue|Clues], Clues).
without(Clue, [Other|Clues], [Other|Others]) :- without(Clue, Clues, Others).

another(clue(Place,Digit), Others) :-
    sudoku(Cells), put(Others, Cells), at(Place, Cells, Cell), Cell #\= Digit, fd_labeling(Cells).

?- clues(_Clues), sudoku(Cells), put(_Clues, Cells), fd_labeling(Cells).
?- clues(_Clues), without(Spare, _Clues, _Others), \+ another(Spare, _Others).
