% The farmer, the wolf, the goat and the cabbage: which seven crossings bring all to the right bank?

opposite(left, right).
opposite(right, left).

cross(state(F,W,G,C), alone,   state(O,W,G,C)) :- opposite(F, O).
cross(state(F,F,G,C), wolf,    state(O,O,G,C)) :- opposite(F, O).
cross(state(F,W,F,C), goat,    state(O,W,O,C)) :- opposite(F, O).
cross(state(F,W,G,F), cabbage, state(O,W,G,O)) :- opposite(F, O).

% Nobody is eaten where the goat is with the farmer, or alone.
safe(state(S,_,S,_)).
safe(state(S,S,G,S)) :- opposite(S, G).

plan(Goal, Goal, [], _).
plan(From, Goal, [Move|Moves], [_|Steps]) :- cross(From, Move, Next), safe(Next), plan(Next, Goal, Moves, Steps).

?- plan(state(left,left,left,left), state(right,right,right,right), Moves, [_,_,_,_,_,_,_]).
