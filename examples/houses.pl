% Three houses in a row, each with a colour, a pet and somebody who lives there.

member(X, [X|_]).
member(X, [_|Rest]) :- member(X, Rest).

next_to(A, B, [A,B|_]).
next_to(A, B, [B,A|_]).
next_to(A, B, [_|Rest]) :- next_to(A, B, Rest).

?- Houses = [house(_,_,_), house(_,_,_), house(_,_,_)],
   Houses = [_, house(red,_,_), _],
   member(house(blue,_,anna), Houses),
   member(house(_,dog,ben), Houses),
   next_to(house(_,cat,_), house(green,_,_), Houses),
   next_to(house(_,cat,_), house(_,fish,_), Houses),
   member(house(_,_,carl), Houses).
