% Six queens on a board of six by six, none of which attacks another. The tests stand before the places that
% they test: each waits until both queens have a place, and then prunes the search at once.

queens(Qs) :- safe(Qs), placed(Qs).

safe([]).
safe([Q|Qs]) :- apart(Q, Qs, 1), safe(Qs).

% No queen of the list stands in the row of Q, or in a diagonal; the first is so many columns away.
apart(_, [], _).
apart(Q, [P|Ps], Away) :-
    Q =\= P, Q =\= P + Away, Q =\= P - Away,
    Next is Away + 1, apart(Q, Ps, Next).

placed([]).
placed([Q|Qs]) :- place(Q), placed(Qs).

place(1). place(2). place(3). place(4). place(5). place(6).

?- Board = [_, _, _, _, _, _], queens(Board).
