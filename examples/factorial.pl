% The factorial of a number. The second clause is taken only where its guard, N > 0, is not false.

factorial(0, 1).
factorial(N, F) :- N > 0, M is N - 1, factorial(M, G), F is N * G.

?- factorial(10, F).
