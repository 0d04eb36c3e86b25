% The fewest coins for a sum: 48 pence in half crowns (30), florins (24), shillings (12), sixpences (6),
% threepences (3) and pennies (1).
% Run it: clpfd < examples/fewest_coins.pl
% 1 answer: 2 florins, counted by trying all numbers of coins in another language. Taking the greatest coin that fits,
% again and again, gives three coins.
% It shows how the least is found: fd_minimize gives the labelling's first answer with the least Number.

?- _Coins = [HalfCrowns, Florins, Shillings, Sixpences, Threepences, Pennies],
   30*HalfCrowns + 24*Florins + 12*Shillings + 6*Sixpences + 3*Threepences + Pennies #= 48,
   Number #= HalfCrowns + Florins + Shillings + Sixpences + Threepences + Pennies,
   fd_minimize(fd_labeling([Number|_Coins]), Number).
