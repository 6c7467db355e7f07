% A list taken apart in all ways.

append([], L, L).
append([H|T], L, [H|R]) :- append(T, L, R).

?- append(X, Y, [a,b,c]).
