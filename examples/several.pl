% Several queries in one text: 1 answer, 1 answer, none. Run it: clpfd < examples/several.pl
?- X in 0..3, Y in 4..4.
?- Low in 0..10, High in 5..20, Low in 8..30.
?- X in 5..3.
