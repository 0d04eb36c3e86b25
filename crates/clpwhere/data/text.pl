digits([]).
digits([X|Xs]) :- X in 0..9, digits(Xs).

?- Y in 0..3,
   X in -dom(Y).
