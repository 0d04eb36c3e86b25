% A rucksack of at most 11 kilograms: something to sleep in, and at least four good things about it.
% Run it: clpfd < examples/rucksack.pl
% 3 answers, counted by trying all 128 ways to pack in another language.
% It shows truth values: a thing is 1 where it is packed and 0 where it isn't, so a sum of products with weights is
% the weight. fd_and and fd_or make new truth values, `#<=>` makes one of a comparison, and soft wishes are
% counted: their sum is at least what is asked for.

taken([]).
taken([Thing|Things]) :- Thing in 0..1, taken(Things).

?- _Things = [Tent,Bag,Stove,Fuel,Food,Rope,Book], taken(_Things),
   Weight #= 4*Tent + 2*Bag + 2*Stove + Fuel + 2*Food + 3*Rope + Book, Weight #=< 11,
   fd_or(Tent, Bag, 1),
   fd_and(Stove, Fuel, Warm),
   Light #<=> Weight #< 9,
   Warm + Light + Food + Rope + Book #>= 4,
   fd_labeling(_Things).
