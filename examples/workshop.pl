% A workshop with one saw and one brush: a table, a chair and a desk are each sawn and then painted. When does each
% begin, so that all is done as early as can be?
% Run it: clpfd < examples/workshop.pl
% All is done after 12 hours at the earliest, and the answer is the first in the order of the labelling: found by
% trying all hours in another language.
% It shows a schedule: two pieces that want one tool are apart by truth values, one before the other or the other way
% round, and fd_minimize finds the least end. Behind the end the truth values are labelled first, since they decide
% most: job_shop.pl has six of each.

apart(Start, Hours, Other, OtherHours, Before) :-
    Before #<=> Start + Hours #=< Other, Behind #<=> Other + OtherHours #=< Start, fd_or(Before, Behind, 1).

one_at_a_time([_], [_], []).
one_at_a_time([S|Ss], [H|Hs], Befores) :- apart_from(Ss, Hs, S, H, Befores, Others), one_at_a_time(Ss, Hs, Others).

apart_from([], [], _, _, Befores, Befores).
apart_from([T|Ts], [K|Ks], S, H, [Before|Befores], Others) :-
    apart(S, H, T, K, Before), apart_from(Ts, Ks, S, H, Befores, Others).

% each is painted behind the saw, and done by the end
piece(Saw, SawHours, Paint, PaintHours, End) :-
    Saw in 0..16, Paint in 0..16, Saw + SawHours #=< Paint, Paint + PaintHours #=< End.

?- End in 0..16,
   piece(SawTable, 3, PaintTable, 4, End), piece(SawChair, 5, PaintChair, 2, End), piece(SawDesk, 2, PaintDesk, 3, End),
   one_at_a_time([SawTable,SawChair,SawDesk], [3,5,2], [_B1,_B2,_B3]),
   one_at_a_time([PaintTable,PaintChair,PaintDesk], [4,2,3], [_B4,_B5,_B6]),
   fd_minimize(fd_labeling([End,_B1,_B2,_B3,_B4,_B5,_B6,SawTable,SawChair,SawDesk,PaintTable,PaintChair,PaintDesk]), End).
