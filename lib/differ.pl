% Numbers that are not equal. Each call here waits, wherever it stands, until the two numbers are known, and makes no fork: state it before
% the choices. Names can't be compared so: lib/names.pl has the same for names that a table numbers.

% differ(?X, ?Y): X and Y are different numbers. Determinate. As a guard write X =\= Y itself, right behind a head, where it decides which clause
% is taken.
differ(X, Y) :- X =\= Y.

% outside(?X, ?Xs): no element of Xs is X. Determinate where Xs is proper: give it a length before.
outside(_, []).
outside(X, [Y|Ys]) :- X =\= Y, outside(X, Ys).

% all_different(?Xs): no two elements of Xs are equal. Determinate where Xs is proper.
all_different([]).
all_different([X|Xs]) :- outside(X, Xs), all_different(Xs).

% index_of(+X, +Xs, ?N): N is the first place of the number X in Xs, counted from 0. Determinate.
index_of(X, [X|_], 0).
index_of(X, [Y|Ys], N) :- X =\= Y, N is M + 1, index_of(X, Ys, M).

% occurrences(+X, +Xs, ?N): N elements of Xs are the number X. Determinate.
occurrences(X, Xs, N) :- occurrences(X, Xs, 0, N).
occurrences(_, [], N, N).
occurrences(X, [X|Xs], Before, N) :- Next is Before + 1, occurrences(X, Xs, Next, N).
occurrences(X, [Y|Ys], Before, N) :- X =\= Y, occurrences(X, Ys, Before, N).
