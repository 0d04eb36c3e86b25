% A job shop of six jobs on six machines, as Fisher and Thompson gave it in 1963: each job goes over all machines in an
% order of its own, and a machine works on one task at a time. When does each task begin, so that all is done as early
% as can be?
% Run it: clpfd < examples/job_shop.pl
% All is done after 55 hours, which is known to be the least.
% It shows what to label first: which of two tasks of one machine comes first decides nearly everything, so behind the
% end these truth values stand in front of the beginnings. With the beginnings in front of them the same search takes a
% thousand times as long.

% task(Machine, Hours), in the order of the job
jobs([[task(3,1), task(1,3), task(2,6), task(4,7), task(6,3), task(5,6)],
      [task(2,8), task(3,5), task(5,10), task(6,10), task(1,10), task(4,4)],
      [task(3,5), task(4,4), task(6,8), task(1,9), task(2,1), task(5,7)],
      [task(2,5), task(1,5), task(3,5), task(4,3), task(5,8), task(6,9)],
      [task(3,9), task(2,3), task(5,5), task(6,4), task(1,3), task(4,1)],
      [task(2,3), task(4,3), task(6,9), task(1,10), task(5,4), task(3,1)]]).

% The beginnings of all tasks, in the order of the jobs; Made has t(Machine, Start, Hours) of each.
begun([], _, [], []).
begun([Job|Jobs], End, Starts, Made) :- begun_job(Job, 0, End, Jobs, Starts, Made).

begun_job([], _, End, Jobs, Starts, Made) :- begun(Jobs, End, Starts, Made).
begun_job([task(M,H)|Tasks], Before, End, Jobs, [S|Starts], [t(M,S,H)|Made]) :-
    S in 0..100, S #>= Before, S + H #=< End,
    begun_job(Tasks, S + H, End, Jobs, Starts, Made).

% A truth value for each two tasks of one machine: whether the first of them comes first.
apart([], []).
apart([T|Ts], Firsts) :- apart_from(Ts, T, Firsts, Others), apart(Ts, Others).

apart_from([], _, Firsts, Firsts).
apart_from([t(M,T,K)|Ts], t(M,S,H), [First|Firsts], Others) :- !,
    First #<=> S + H #=< T, Behind #<=> T + K #=< S, fd_or(First, Behind, 1),
    apart_from(Ts, t(M,S,H), Firsts, Others).
apart_from([_|Ts], T, Firsts, Others) :- apart_from(Ts, T, Firsts, Others).

append([], Ys, Ys).
append([X|Xs], Ys, [X|Zs]) :- append(Xs, Ys, Zs).

?- jobs(_Jobs), End in 0..100, begun(_Jobs, End, Starts, _Made), apart(_Made, _Firsts),
   append([End|_Firsts], Starts, _All), fd_minimize(fd_labeling(_All), End).
