% SEND + MORE = MONEY, digits first and tests behind.

digit(0). digit(1). digit(2). digit(3). digit(4). digit(5). digit(6). digit(7). digit(8). digit(9).

digits([]).
digits([X|Xs]) :- digit(X), digits(Xs).

different([]).
different([X|Xs]) :- outside(X, Xs), different(Xs).

outside(_, []).
outside(X, [Y|Ys]) :- X =\= Y, outside(X, Ys).

% A column of the sum: what is written below it, and what is carried.
column(A, B, In, Sum, Out) :- All is A + B + In, Sum is All mod 10, Out is All // 10.

?- digits([D, E, Y, N, R, O, S, M]), M =\= 0, S =\= 0, different([S, E, N, D, M, O, R, Y]),
   column(D, E, 0, Y, _C1), column(N, R, _C1, E, _C2), column(E, O, _C2, N, _C3), column(S, M, _C3, O, M).
