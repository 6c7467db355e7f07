% The price of a basket, with the sum before what it adds to: `is` waits until its right side is ground, so a rule may say first what its answer is.
% Each sum here waits for the one behind it; from the last item on all are made in one go.
total([], 0).
total([item(_, Price, Count)|Items], Sum) :- Sum is Price * Count + Rest, total(Items, Rest).

price(bread, 3).
price(milk, 1).
price(tea, 7).

basket([], []).
basket([count(Name, Count)|Names], [item(Name, Price, Count)|Items]) :- price(Name, Price), basket(Names, Items).

?- total(Items, Sum), basket([count(bread, 2), count(milk, 4), count(tea, 1)], Items).
