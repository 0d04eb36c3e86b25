% Five talks in five hours, with wishes in the order of their weight: each is kept that can still be kept with
% those before it.
% Run it: clpfd < examples/wishes.pl
% 2 answers, counted by going through all 120 orders of the talks in another language.
% It shows a choice that is made once: `\+ \+ G` asks whether G can be, and leaves everything open; the if then
% keeps the wish or lets it go. Each talk's number is its hour.

wish(ann_before_ben,   [Ann,Ben,_,_,_]) :- Ann #< Ben.
wish(cleo_first,       [_,_,Cleo,_,_]) :- Cleo #= 1.
wish(dan_beside_eve,   [_,_,_,Dan,Eve]) :-
    Dan in dom(Eve)+1 : dom(Eve)-1, Eve in dom(Dan)+1 : dom(Dan)-1.
wish(eve_first,        [_,_,_,_,Eve]) :- Eve #= 1.
wish(ann_last,         [Ann,_,_,_,_]) :- Ann #= 5.
wish(ben_far_from_ann, [Ann,Ben,_,_,_]) :- Ben #\= Ann + 1, Ben #\= Ann - 1.

hours([]).
hours([Talk|Talks]) :- Talk in 1..5, hours(Talks).

keep([], _, []).
keep([Wish|Wishes], Talks, Kept) :-
    ( \+ \+ (wish(Wish, Talks), fd_labeling(Talks)) ->
        wish(Wish, Talks), Kept = [Wish|Others]
    ;   Kept = Others
    ),
    keep(Wishes, Talks, Others).

?- Talks = [_Ann,_Ben,_Cleo,_Dan,_Eve], hours(Talks), fd_all_different(Talks),
   keep([ann_before_ben, cleo_first, dan_beside_eve, eve_first, ann_last, ben_far_from_ann], Talks, Kept),
   fd_labeling(Talks).
