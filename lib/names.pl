% Names that are not equal. Pure clauses have no `\=`: two names differ where a table says so. A table of all pairs has a fact for each two names;
% a table that numbers the names has one for each name, and the numbers are compared. Write it in your program, each name and each number once:
%
%     numbered(red, 1). numbered(green, 2). numbered(blue, 3).
%
% Asks for: numbered/2 of the program.

% differ_names(?X, ?Y): X and Y are different names of the table. Determinate where both are known; an open one makes a fork over the table.
differ_names(X, Y) :- N =\= M, numbered(X, N), numbered(Y, M).

% outside_names(?X, ?Xs): X is a name of the table, and no element of Xs, which are names of it. Determinate where all are known.
outside_names(X, Xs) :- numbered(X, N), outside_number(N, Xs).
outside_number(_, []).
outside_number(N, [Y|Ys]) :- N =\= M, numbered(Y, M), outside_number(N, Ys).

% all_names_different(?Xs): names of the table, no two of which are equal. Determinate where all are known; give Xs a length before.
all_names_different([]).
all_names_different([X|Xs]) :- outside_names(X, Xs), all_names_different(Xs).

% delete_name(+Xs, +X, ?Ys): Ys is Xs without each X. Determinate: the guard of keep_unless/5 decides.
delete_name(Xs, X, Ys) :- numbered(X, N), delete_numbered(Xs, N, Ys).
delete_numbered([], _, []).
delete_numbered([Y|Xs], N, Ys) :- numbered(Y, M), keep_unless(M, N, Y, Xs, Ys).
keep_unless(N, N, _, Xs, Ys) :- delete_numbered(Xs, N, Ys).
keep_unless(M, N, Y, Xs, [Y|Ys]) :- M =\= N, delete_numbered(Xs, N, Ys).
