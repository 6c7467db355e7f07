% Two jugs without marks, one of four litres and one of three, and a tap: which plans of just six steps leave two litres in the
% large one? A step is taken only where its guard is not false, so that no step of a plan is for nothing.

step(fill_large,  jugs(L,S), jugs(4,S)) :- L < 4.
step(fill_small,  jugs(L,S), jugs(L,3)) :- S < 3.
step(empty_large, jugs(L,S), jugs(0,S)) :- L > 0.
step(empty_small, jugs(L,S), jugs(L,0)) :- S > 0.
step(into_small,  jugs(L,S), jugs(M,3)) :- L > 0, S < 3, L + S >= 3, M is L + S - 3.
step(into_small,  jugs(L,S), jugs(0,T)) :- L > 0, L + S < 3, T is L + S.
step(into_large,  jugs(L,S), jugs(4,T)) :- S > 0, L < 4, L + S >= 4, T is L + S - 4.
step(into_large,  jugs(L,S), jugs(M,0)) :- S > 0, L + S < 4, M is L + S.

plan(0, Jugs, Jugs, []).
plan(N, From, To, [Step|Steps]) :- N > 0, step(Step, From, Next), M is N - 1, plan(M, Next, To, Steps).

?- plan(6, jugs(0,0), jugs(2,_), Plan).
