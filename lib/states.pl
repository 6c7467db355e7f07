% A planner. The program says which state may follow which: step(From, To). A move may be a part of the state.
%
% Asks for: step/2 of the program.

% plan(+From, ?To, +Bound, ?States): States lead from From to To by at most Bound steps, the shortest first. Ends always, with all of them.
plan(From, To, Bound, States) :- plan(0, From, To, Bound, States).
plan(N, From, To, _, States) :- steps(N, From, To, States).
plan(N, From, To, Bound, States) :- N < Bound, M is N + 1, plan(M, From, To, Bound, States).

% steps(+N, ?From, ?To, ?States): the same with just N steps. N decides each step, so only step/2 makes forks.
steps(0, To, To, [To]).
steps(N, From, To, [From|States]) :- N > 0, M is N - 1, step(From, Next), steps(M, Next, To, States).
