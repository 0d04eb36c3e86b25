% Who does which job: four people, four jobs, and what each job costs where that person does it.
% Run it: clpfd < examples/assignment.pl
% The least cost is 13 and the greatest 33, and each is reached in one way: counted by trying all 24 ways in another
% language.
% It shows the least and the greatest cost: fd_minimize and fd_maximize give one answer, the first in the order of the
% labelling among those with the best cost. The cost stands in the list that is labelled.

costs([], [], 0).
costs([Job|Jobs], [Row|Rows], Cost + Rest) :- fd_element(Job, Row, Cost), costs(Jobs, Rows, Rest).

jobs([Ann,Ben,Cleo,Dora], Cost) :-
    fd_all_different([Ann,Ben,Cleo,Dora]),
    costs([Ann,Ben,Cleo,Dora], [[9,2,7,8], [6,4,3,7], [5,8,1,8], [7,6,9,4]], Sum),
    Cost #= Sum.

?- jobs([Ann,Ben,Cleo,Dora], Cost), fd_minimize(fd_labeling([Ann,Ben,Cleo,Dora,Cost]), Cost).
?- jobs([Ann,Ben,Cleo,Dora], Cost), fd_maximize(fd_labeling([Ann,Ben,Cleo,Dora,Cost]), Cost).
