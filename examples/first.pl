% Two intervals of one variable: 1 answer, with an open domain. Run it: clpfd < examples/first.pl
?- X in 1..5, X in 3..9.
