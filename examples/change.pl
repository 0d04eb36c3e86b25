% Change for a sum: the ways to pay 50 cents with at most five coins of 1, 2, 5, 10, 20 and 50 cents.
% Run it: clpfd < examples/change.pl
% 6 answers, counted by going through all multisets of at most five coins in another language.
% It shows a table: fd_element(Place, Table, Value) says that Value stands at Place, counted from 1. A coin that
% isn't needed is the 0 at the table's front. The places rise, so that the order of the coins doesn't count.

coins([0,1,2,5,10,20,50]).

purse([], [], 0).
purse([Place|Places], [Coin|Coins], Number) :-
    Number > 0, coins(Table), fd_element(Place, Table, Coin),
    Others is Number - 1, purse(Places, Coins, Others).

rising([_]).
rising([Place,Next|Places]) :- Place #=< Next, rising([Next|Places]).

?- Coins = [_A,_B,_C,_D,_E], purse(_Places, Coins, 5), rising(_Places),
   _A + _B + _C + _D + _E #= 50, fd_labeling(_Places).
