% The types of terms of the lambda calculus. A variable is written v(N), where N counts the `fn` between it and its own, from 0.
% What to see: the one choice is which term; its type is found without a search. That of `self` would be part of itself, so it has none: the occurs
% check refuses it.
% Of the two `is` of `at` the first counts down where N is known, and the second finds N where a term is asked for.

type(Known, v(N), T) :- at(N, Known, T).
type(Known, fn(Body), arrow(A, B)) :- type([A|Known], Body, B).
type(Known, apply(F, X), B) :- type(Known, F, arrow(A, B)), type(Known, X, A).

at(0, [T|_], T).
at(N, [_|Ts], T) :- N > 0, M is N - 1, N is M + 1, at(M, Ts, T).

term(identity, fn(v(0))).
term(first, fn(fn(v(1)))).
term(twice, fn(fn(apply(v(1), apply(v(1), v(0)))))).
term(compose, fn(fn(fn(apply(v(2), apply(v(1), v(0))))))).
term(self, fn(apply(v(0), v(0)))).

?- term(Name, Term), type([], Term, Type).
