% Right triangles whose sides are whole numbers up to 50, and rectangles whose area is as great as their perimeter.
% Run it: clpfd < examples/triples.pl
% 20 triangles (the published count), and 2 rectangles, 3 by 6 and 4 by 4; both counted by trying all sides in
% another language.
% It shows products: in `X*Y #= Z` both factors may be open, and Z is a variable or a number. So a square has a
% variable of its own, which then stands in a sum. Side #< Other leaves one of two mirrored triangles.

sides([]).
sides([Side|Sides]) :- Side in 1..50, sides(Sides).

square(Side, Square) :- Side*Side #= Square.

?- Sides = [_A,_B,_C], sides(Sides), _A #< _B,
   square(_A, _AA), square(_B, _BB), square(_C, _CC), _AA + _BB #= _CC,
   fd_labeling(Sides).
?- Width in 1..100, Height in 1..100, Width #=< Height,
   Width*Height #= _Area, 2*Width + 2*Height #= _Area,
   fd_labeling([Width,Height]).
