% Routes of a metro, each as a term. What to see: two ways lead round the same corner, and each is an answer.

line(central,oak).
line(oak,harbour).
line(oak,museum).
line(museum,park).
line(harbour,park).
line(park,zoo).

route(From,To,direct(From,To)) :- line(From,To).
route(From,To,via(From,Rest)) :- line(From,Next), route(Next,To,Rest).

?- route(central,zoo,Route).
