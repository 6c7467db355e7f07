% Four queens, places first and tests behind.

place(1). place(2). place(3). place(4).

safe([]).
safe([Q|Qs]) :- apart(Q, Qs, 1), safe(Qs).

apart(_, [], _).
apart(Q, [P|Ps], Away) :- Q =\= P, Q =\= P + Away, Q =\= P - Away, Next is Away + 1, apart(Q, Ps, Next).

?- place(A), place(B), place(C), place(D), safe([A, B, C, D]).
