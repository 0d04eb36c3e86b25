% The zebra puzzle: five houses in a row, 1 to 5; of whom is the zebra, and who drinks water?
% Run it: clpfd < examples/zebra.pl
% 1 answer, the published one: the Norwegian drinks water, and the Japanese has the zebra.
% It shows a pattern as ranges: houses next to one another differ by one, in either direction.
% Written with ; in place of the two ranges, the rule would be tried first one way and then the other.

houses([]).
houses([House|Houses]) :- House in 1..5, houses(Houses).

row(Houses) :- houses(Houses), fd_all_different(Houses).

next_to(X, Y) :- X in dom(Y)+1 : dom(Y)-1, Y in dom(X)+1 : dom(X)-1.

?- _People = [English, Spanish, Japanese, Ukrainian, Norwegian],
   _Colours = [Red, Green, White, Yellow, Blue],
   _Jobs = [Painter, Sculptor, Diplomat, Violinist, Doctor],
   _Animals = [Dog, Snails, Fox, Horse, Zebra],
   _Drinks = [Tea, Coffee, Milk, Juice, Water],
   row(_People), row(_Colours), row(_Jobs), row(_Animals), row(_Drinks),
   English = Red, Spanish = Dog, Japanese = Painter, Ukrainian = Tea,
   Norwegian = 1, Green = Coffee, Green #= White + 1, Sculptor = Snails,
   Diplomat = Yellow, Milk = 3, Violinist = Juice,
   next_to(Norwegian, Blue), next_to(Fox, Doctor), next_to(Horse, Diplomat),
   fd_labeling(_People), fd_labeling(_Colours), fd_labeling(_Jobs),
   fd_labeling(_Animals), fd_labeling(_Drinks).
