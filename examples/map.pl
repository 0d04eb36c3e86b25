% Colouring a map: countries with a common border get different colours.
% Run it: clpfd < examples/map.pl
% No answer with three colours, 12 answers with four (counted by trying all 4^8 colourings in another language,
% with the colours of four countries that all touch one another fixed).
% It shows a model as data: the borders are a list of pairs, and a clause posts the constraint of each pair.

map([Austria, Belgium, France, Germany, Italy, Luxembourg, Netherlands, Switzerland],
    [Austria-Germany, Austria-Italy, Austria-Switzerland,
     Belgium-France, Belgium-Germany, Belgium-Luxembourg, Belgium-Netherlands,
     France-Germany, France-Italy, France-Luxembourg, France-Switzerland,
     Germany-Luxembourg, Germany-Netherlands, Germany-Switzerland,
     Italy-Switzerland]).

coloured([], _).
coloured([Country|Countries], Colours) :- Country in 1..Colours, coloured(Countries, Colours).

bordered([]).
bordered([One-Other|Borders]) :- One #\= Other, bordered(Borders).

?- map(Countries, _Borders),
   coloured(Countries, 3), bordered(_Borders), fd_labeling(Countries).

?- _Countries = [Austria, Belgium, France, Germany, Italy, Luxembourg, Netherlands, Switzerland],
   map(_Countries, _Borders), coloured(_Countries, 4), bordered(_Borders),
   Belgium = 1, France = 2, Germany = 3, Luxembourg = 4,
   fd_labeling(_Countries).
