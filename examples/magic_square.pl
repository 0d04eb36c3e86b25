% Magic squares: the numbers 1 to 9 in a square, with the sum 15 in each row, column and diagonal.
% Run it: clpfd < examples/magic_square.pl
% 8 answers, and 1 where turned and mirrored squares count once (the published counts).
% It shows a symmetry broken by #<: of the eight squares only that is kept in which the first corner
% is less than the other three, and the one to the right of it less than the one below.

cells([]).
cells([Cell|Cells]) :- Cell in 1..9, cells(Cells).

magic([A,B,C, D,E,F, G,H,I]) :-
    cells([A,B,C,D,E,F,G,H,I]), fd_all_different([A,B,C,D,E,F,G,H,I]),
    A+B+C #= 15, D+E+F #= 15, G+H+I #= 15,
    A+D+G #= 15, B+E+H #= 15, C+F+I #= 15,
    A+E+I #= 15, C+E+G #= 15.

?- magic(Square), fd_labeling(Square).
?- Square = [A,_,C, _,_,_, G,_,I], magic(Square),
   A #< C, A #< G, A #< I, C #< G,
   fd_labeling(Square).
