% Euclid's algorithm, and the Fibonacci numbers that it likes least: each call has one clause whose head and guard fit,
% so that nothing is searched.

gcd(X, 0, X) :- X > 0.
gcd(X, Y, G) :- Y > 0, Z is X mod Y, gcd(Y, Z, G).

% The number at a place, counted from 0, by the two numbers before it.
fibonacci(N, F) :- step(N, 0, 1, F).

step(0, F, _, F).
step(N, F, G, H) :- N > 0, M is N - 1, Sum is F + G, step(M, G, Sum, H).

?- fibonacci(90, F), fibonacci(89, E), gcd(F, E, G).
