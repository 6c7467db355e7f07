% A knapsack: what to pack, of things with a weight and a worth, so that the weight is at most ten and the worth at least 21.
% The worth is asked for before anything is chosen: this comparison waits until the last thing is packed or left.

packing(Choice) :- Worth >= 21, chosen(Choice, 10, 0, Worth).

% Choice says of each thing whether it is packed, where so much room is left.
chosen([tent(A), stove(B), rope(C), lamp(D), blanket(E)], Room, Worth0, Worth) :-
    thing(A, 5, 10, Room,  Room1, Worth0, Worth1),
    thing(B, 3, 7,  Room1, Room2, Worth1, Worth2),
    thing(C, 2, 4,  Room2, Room3, Worth2, Worth3),
    thing(D, 1, 3,  Room3, Room4, Worth3, Worth4),
    thing(E, 4, 6,  Room4, _,     Worth4, Worth).

thing(packed, Weight, Value, Room, Left, Before, After) :-
    Room >= Weight, Left is Room - Weight, After is Before + Value.
thing(left, _, _, Room, Room, Worth, Worth).

?- packing(Choice).
