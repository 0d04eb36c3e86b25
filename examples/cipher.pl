% A cipher of 26 letters: each letter is a number of its own from 1 to 26, and each word's sum is given.
% Run it: clpfd < examples/cipher.pl
% 1 answer, the published one; a search by hand in another language finds no second.
% It shows fd_labelingff: taking a letter with the fewest numbers first needs far fewer goals
% than fd_labeling, which takes the letters from left to right.

numbers([]).
numbers([Letter|Letters]) :- Letter in 1..26, numbers(Letters).

?- _Letters = [A,B,C,D,E,F,G,H,I,J,K,L,M,N,O,P,Q,R,S,T,U,V,W,X,Y,Z],
   numbers(_Letters), fd_all_different(_Letters),
   B+A+L+L+E+T #= 45,     C+E+L+L+O #= 43,       C+O+N+C+E+R+T #= 74,
   F+L+U+T+E #= 30,       F+U+G+U+E #= 50,       G+L+E+E #= 66,
   J+A+Z+Z #= 58,         L+Y+R+E #= 47,         O+B+O+E #= 53,
   O+P+E+R+A #= 65,       P+O+L+K+A #= 59,       Q+U+A+R+T+E+T #= 50,
   S+A+X+O+P+H+O+N+E #= 134,                     S+C+A+L+E #= 51,
   S+O+L+O #= 37,         S+O+N+G #= 61,         S+O+P+R+A+N+O #= 82,
   T+H+E+M+E #= 72,       V+I+O+L+I+N #= 100,    W+A+L+T+Z #= 34,
   fd_labelingff(_Letters).
