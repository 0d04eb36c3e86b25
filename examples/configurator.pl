% A computer of four parts: which board, processor, case and power supply go together, and what is the cheapest that has at
% least 12 points?
% Run it: clpfd < examples/configurator.pl
% The cheapest costs 470, found by going through all 144 choices in another language.
% It shows a table of pairs without branches: the rows of the table are numbered, and a row's number is a variable, from
% which fd_element takes both columns. What one column loses, the other one loses too, before anything is tried.

% board, processor: the pairs that fit
fits(Board, Processor) :-
    Row in 1..6,
    fd_element(Row, [1,1,2,2,3,3], Board),
    fd_element(Row, [1,2,2,3,3,4], Processor).

% board, case: a large board needs a large case
stands_in(Board, Case) :-
    Row in 1..6,
    fd_element(Row, [1,1,1,2,2,3], Board),
    fd_element(Row, [1,2,3,2,3,3], Case).

priced(Board, Processor, Case, Supply, Price) :-
    fd_element(Board, [80,110,150], BoardPrice),
    fd_element(Processor, [90,140,200,260], ProcessorPrice),
    fd_element(Case, [40,60,90], CasePrice),
    fd_element(Supply, [50,70,100,130], SupplyPrice),
    Price #= BoardPrice + ProcessorPrice + CasePrice + SupplyPrice.

% the points of a processor and of a board
points(Board, Processor, Points) :-
    fd_element(Processor, [4,6,9,12], ProcessorPoints), fd_element(Board, [2,3,5], BoardPoints),
    Points #= ProcessorPoints + BoardPoints.

% the watts that a processor wants, and a supply gives
powered(Processor, Supply) :-
    fd_element(Processor, [200,300,380,520], Wanted), fd_element(Supply, [250,350,450,600], Given), Wanted #=< Given.

?- Board in 1..3, Processor in 1..4, Case in 1..3, Supply in 1..4,
   fits(Board, Processor), stands_in(Board, Case), powered(Processor, Supply),
   points(Board, Processor, Points), Points #>= 12,
   priced(Board, Processor, Case, Supply, Price),
   fd_minimize(fd_labeling([Price,Board,Processor,Case,Supply]), Price).
