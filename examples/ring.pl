% A ring of three places, and a fourth beside it. A path may go round again and again.
% What to see: ./ask examples/ring.pl --limit 60 stops at the limit and says so, as the search has no end: give such a search a small limit.
% lib/graphs.pl has paths that use no place twice, and they end.
% run: --limit 60

edge(a, b).
edge(b, c).
edge(c, a).
edge(b, d).

path(X, X, [X]).
path(X, Z, [X|P]) :- edge(X, Y), path(Y, Z, P).

?- path(a, d, P).
