% Duty on five days: four people, 1 to 4, one of them each day.
% Nobody has two days in a row. 1 has at most two days, each other at most one. 2 can't on Wednesday, 1 not on
% Friday, Monday is for 1 or 3, and who has Thursday has a smaller number than who has Friday.
% Run it: clpfd < examples/duty.pl
% 8 answers, counted by going through all 4^5 plans in another language.
% It shows a flat query, constraints and then one labelling of all variables: clpcheck can check its answers.

?- Mon in {1}:{3}, Tue in 1..4, Wed in {1}:3..4, Thu in 1..4, Fri in 2..4,
   Mon #\= Tue, Tue #\= Wed, Wed #\= Thu, Thu #\= Fri,
   fd_atmost(2, [Mon,Tue,Wed,Thu,Fri], 1), fd_atmost(1, [Mon,Tue,Wed,Thu,Fri], 2),
   fd_atmost(1, [Mon,Tue,Wed,Thu,Fri], 3), fd_atmost(1, [Mon,Tue,Wed,Thu,Fri], 4),
   Thu #< Fri,
   fd_labeling([Mon,Tue,Wed,Thu,Fri]).
