% Langford pairs: a row of two 1s, two 2s, .. two Ns, in which K numbers stand between the two Ks.
% Run it: clpfd < examples/langford.pl
% For 5 there is no answer; for 4 there is 1, 4 1 3 1 2 4 3 2, and for 7 there are 26. A row and the same row
% read backwards count once (the published counts).
% It shows a model by places: [First1,Second1, First2,Second2, ..], and a symmetry broken by #<:
% what stands between the two 1s lies in the first half of the row.

pairs(K, N, []) :- K > N.
pairs(K, N, [First,Second|Places]) :-
    K =< N, Last is 2*N,
    First in 1..Last, Second in 1..Last, Second #= First + K + 1,
    Next is K + 1, pairs(Next, N, Places).

langford(N, Places) :-
    pairs(1, N, Places), fd_all_different(Places),
    Places = [First1|_], 2*First1 #< 2*N - 1,
    fd_labeling(Places).

?- langford(4, Places).
?- langford(5, Places).
?- langford(7, Places).
