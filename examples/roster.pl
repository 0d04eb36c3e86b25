% A week's roster: four people, seven days, and each day two on the early shift, one on the night shift, one off.
% Nobody goes from a night to an early shift, or has more than two nights or more than two days off.
% Run it: clpfd < examples/roster.pl
% 5 answers with the wishes below, counted by going through all rosters in another language (9,840 without wishes).
% The n-th number of a list is the n-th day from Monday on: 0 is off, 1 early, 2 night.
% It shows a pattern as ranges: a range may name the domain of a neighbour. 1 is left tomorrow only while today
% may be 0 or 1, and 2 is left today only while tomorrow may be 0 or 2.

days([], 0).
days([Shift|Week], Days) :-
    Days > 0, Shift in 0..2, Others is Days - 1, days(Week, Others).

rested([_]).
rested([Today,Tomorrow|Week]) :-
    Tomorrow in {0} : {2} : (dom(Today) & (0..1))*0 + 1,
    Today in (0..1) : (dom(Tomorrow) & ({0}:{2}))*0 + 2,
    rested([Tomorrow|Week]).

works(Week) :- days(Week, 7), rested(Week), fd_atmost(2, Week, 0), fd_atmost(2, Week, 2).

% staffed: at most so many of each shift a day. Together that is four, so it is exactly so many.
staffed([], [], [], []).
staffed([A|As], [B|Bs], [C|Cs], [D|Ds]) :-
    fd_atmost(1, [A,B,C,D], 0), fd_atmost(2, [A,B,C,D], 1), fd_atmost(1, [A,B,C,D], 2),
    staffed(As, Bs, Cs, Ds).

wishes(Ann, Ben, Cleo, Dan) :-
    Ann = [_,_,_,_,_,0,0],                          % a free weekend
    Ben = [_,_,0|_],                                % Wednesday off
    Cleo = [Monday,Tuesday|_], Monday #\= 2, Tuesday #\= 2,
    Dan = [_,_,_,2|_].                              % the night of Thursday

?- works(Ann), works(Ben), works(Cleo), works(Dan),
   staffed(Ann, Ben, Cleo, Dan), wishes(Ann, Ben, Cleo, Dan),
   fd_labeling(Ann), fd_labeling(Ben), fd_labeling(Cleo), fd_labeling(Dan).
