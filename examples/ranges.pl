% Ranges with complements, unions, products and quotients: 1 answer each. Run it: clpfd < examples/ranges.pl
?- X in 1..5, X in -{4}, % a comment
   Y in ({1}:{4})*3+1.
?- X in (1..9:20..30)/2.
