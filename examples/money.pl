% SEND + MORE = MONEY: ten different digits for eight letters, with the sum column by column. All tests stand first
% and wait; a digit that is chosen runs those that it makes ground.

puzzle(S, E, N, D, M, O, R, Y) :-
    S =\= 0, M =\= 0,
    different([S, E, N, D, M, O, R, Y]),
    column(D, E, 0, Y, C1), column(N, R, C1, E, C2), column(E, O, C2, N, C3), column(S, M, C3, O, M),
    digits([M, S, O, E, N, R, D, Y]).

% A + B + In is Sum, and Out is carried.
column(A, B, In, Sum, Out) :- carry(Out), A + B + In =:= Sum + 10 * Out.

carry(0). carry(1).

different([]).
different([X|Xs]) :- outside(X, Xs), different(Xs).

outside(_, []).
outside(X, [Y|Ys]) :- X =\= Y, outside(X, Ys).

digits([]).
digits([X|Xs]) :- digit(X), digits(Xs).

digit(0). digit(1). digit(2). digit(3). digit(4). digit(5). digit(6). digit(7). digit(8). digit(9).

?- puzzle(S, E, N, D, M, O, R, Y).
