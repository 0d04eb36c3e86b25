% SEND + MORE = MONEY: each letter is a digit of its own, and no number begins with 0.
% Run it: clpfd < examples/send_more.pl
% 1 answer, the published one: 9567 + 1085 = 10652.
% It shows the order of every model: domains, then constraints, then the labelling.
% Names that begin with _ aren't shown.

digits([]).
digits([Digit|Digits]) :- Digit in 0..9, digits(Digits).

?- _Letters = [S,E,N,D,M,O,R,Y],
   digits(_Letters), S #>= 1, M #>= 1,
   fd_all_different(_Letters),
   1000*S + 100*E + 10*N + D + 1000*M + 100*O + 10*R + E
     #= 10000*M + 1000*O + 100*N + 10*E + Y,
   fd_labeling(_Letters).
