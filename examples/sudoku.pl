% A sudoku: each row, column and block of three by three has the numbers 1 to 9.
% Run it: clpfd < examples/sudoku.pl
% 1 answer, the published one; a search in another language finds no second.
% It shows write and nl: the rows are written when they are solved, and the answer line is true,
% since the query has no name without a _ at its front.

digits([]).
digits([Digit|Digits]) :- Digit in 1..9, digits(Digits).

rows([]).
rows([Row|Rows]) :- digits(Row), fd_all_different(Row), rows(Rows).

columns([], [], [], [], [], [], [], [], []).
columns([A|As], [B|Bs], [C|Cs], [D|Ds], [E|Es], [F|Fs], [G|Gs], [H|Hs], [I|Is]) :-
    fd_all_different([A,B,C,D,E,F,G,H,I]),
    columns(As, Bs, Cs, Ds, Es, Fs, Gs, Hs, Is).

blocks([], [], []).
blocks([A,B,C|Xs], [D,E,F|Ys], [G,H,I|Zs]) :-
    fd_all_different([A,B,C,D,E,F,G,H,I]), blocks(Xs, Ys, Zs).

solved([]).
solved([Row|Rows]) :- fd_labelingff(Row), solved(Rows).

shown([]).
shown([Row|Rows]) :- write(Row), nl, shown(Rows).

sudoku([A,B,C,D,E,F,G,H,I]) :-
    rows([A,B,C,D,E,F,G,H,I]), columns(A, B, C, D, E, F, G, H, I),
    blocks(A, B, C), blocks(D, E, F), blocks(G, H, I),
    solved([A,B,C,D,E,F,G,H,I]).

?- _Rows = [[5,3,_,_,7,_,_,_,_],
            [6,_,_,1,9,5,_,_,_],
            [_,9,8,_,_,_,_,6,_],
            [8,_,_,_,6,_,_,_,3],
            [4,_,_,8,_,3,_,_,1],
            [7,_,_,_,2,_,_,_,6],
            [_,6,_,_,_,_,2,8,_],
            [_,_,_,4,1,9,_,_,5],
            [_,_,_,_,8,_,_,7,9]],
   sudoku(_Rows), shown(_Rows).
