% Ranges that read other variables: 1 answer, 1 answer, and a fault, so the program ends with 4.
% Run it: clpfd < examples/variables.pl
?- X in 0..10, Y in 0..10, % a comment
   X in min(Y)+1..infinity, Y in 0..max(X)-1.
?- X in 0..3, X in -{2}.
?- X in C..9.
