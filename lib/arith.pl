% Whole numbers of 64 bits. Where a value is out of their range, there is no answer.

% between(+Low, +High, ?N): N is one of Low, .., High, from the least on. Determinate where N is known when the call is reduced. It halves the
% range, so that an answer weighs 7 for each halving and not for each number. High - Low is a number of 64 bits. There is no `inf`. In a large
% search over a small range, facts (digit(0). digit(1). ..) are better: they make one fork for all of them.
between(N, N, N).
between(Low, High, N) :- Low < High, N =< Low + (High - Low) // 2, Mid is Low + (High - Low) // 2, between(Low, Mid, N).
between(Low, High, N) :- Low < High, N > Low + (High - Low) // 2, Next is Low + (High - Low) // 2 + 1, between(Next, High, N).

% plus(?X, ?Y, ?Z): X + Y is Z. Determinate; waits until two of the three are known.
plus(X, Y, Z) :- Z is X + Y, X is Z - Y, Y is Z - X.

% succ(?N, ?M): M is N + 1, and N is at least 0. Determinate; waits until one of the two is known.
succ(N, M) :- N >= 0, M is N + 1, N is M - 1.

% gcd(+X, +Y, ?G): the greatest common divisor, at least 0. Determinate. SWI-Prolog has it as a function.
gcd(X, 0, G) :- G is max(X, -X).
gcd(X, Y, G) :- Y =\= 0, Z is X mod Y, gcd(Y, Z, G).

% power(+Base, +Exponent, ?Power): for exponents from 0 on, and 1 for the exponent 0. Determinate, with a step or two for each halving of
% the exponent. SWI-Prolog has the function `**`.
power(_, 0, 1).
power(Base, Exponent, Power) :- Exponent > 0, Exponent mod 2 =:= 0, Half is Exponent // 2, power(Base, Half, Root), Power is Root * Root.
power(Base, Exponent, Power) :- Exponent mod 2 =:= 1, Less is Exponent - 1, power(Base, Less, Root), Power is Root * Base.

% absolute(+X, ?Y): Y is X without its sign. Determinate.
absolute(X, Y) :- Y is max(X, -X).

% divides(+X, +Y): Y is a multiple of X. Determinate.
divides(X, Y) :- Y mod X =:= 0.
