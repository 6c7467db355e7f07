% Five jobs in a house, three of them for the same painter: when does each begin, so that all are done within nine hours?
% What to see: `apart` has two alternatives, one for each order of two jobs, and makes no fork here. It waits, behind the places where hours are chosen,
% until the comparisons with which they begin, their guards, leave one alternative or none.

schedule([wiring(W), plaster(P), paint(C), floor(F), clean(L)]) :-
    W + 1 =< P, P + 2 =< C, W + 1 =< F, C + 2 =< L, F + 3 =< L,
    hours([W, P, C, F, L]),
    apart(P, 2, F, 3),
    apart(C, 2, F, 3),
    L + 1 =< 9.

% A job that begins at A and takes M hours ends before one that begins at B and takes N, or the other way round.
apart(A, M, B, N) :- ( A + M =< B ; B + N =< A ).

hours([]).
hours([H|Hs]) :- hour(H), hours(Hs).

hour(0). hour(1). hour(2). hour(3). hour(4). hour(5). hour(6). hour(7). hour(8).

?- schedule(Jobs).
