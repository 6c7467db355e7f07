edge(a, b). edge(b, c). edge(a, d). edge(d, c).
path(X, X, [X]).
path(X, Z, [X|P]) :- edge(X, Y), path(Y, Z, P).
?- path(a, c, P).
