% A school timetable: two classes with the same eight lessons, two days of four hours each.
% The hours are 1 to 4 on Monday and 5 to 8 on Tuesday. Each class has
%   maths and English once a day; science in two hours in a row; sport, both classes together; and art.
% Each subject has one teacher; sport and art have the same one.
% Run it: clpfd < examples/timetable.pl
% 8 answers, counted by going through all pairs of plans in another language.
% It shows domains with holes, and a symmetry broken by #<: the classes could change their plans,
% so that is kept in which class A has maths on Monday before class B.

monday(Hour) :- Hour in 1..4.
tuesday(Hour) :- Hour in 5..8.

% plan: the hours of one class.
plan([Maths1, Maths2, English1, English2, Science1, Science2, Sport, Art]) :-
    monday(Maths1), tuesday(Maths2), monday(English1), tuesday(English2),
    Science1 in (1..3):(5..7), Science2 #= Science1 + 1,
    Sport in 1..8, Art in 1..8,
    fd_all_different([Maths1, Maths2, English1, English2, Science1, Science2, Sport, Art]).

% late: the English teacher isn't there in the first hour of a day.
late([]).
late([Hour|Hours]) :- Hour in -({1}:{5}), late(Hours).

% between: the teacher of sport and art comes in the third hour of Monday and leaves after the third of Tuesday.
between([]).
between([Hour|Hours]) :- Hour in 3..7, between(Hours).

?- ClassA = [_M1A,_M2A,_E1A,_E2A,_S1A,_S2A,_Sport,_ArtA], plan(ClassA),
   ClassB = [_M1B,_M2B,_E1B,_E2B,_S1B,_S2B,_Sport,_ArtB], plan(ClassB),
   fd_all_different([_M1A,_M2A,_M1B,_M2B]),
   fd_all_different([_E1A,_E2A,_E1B,_E2B]), late([_E1A,_E2A,_E1B,_E2B]),
   fd_all_different([_S1A,_S2A,_S1B,_S2B]),
   fd_all_different([_Sport,_ArtA,_ArtB]), between([_Sport,_ArtA,_ArtB]),
   _Sport in -({1}:{5}),
   _M1A #< _M1B,
   fd_labeling(ClassA), fd_labeling(ClassB).
