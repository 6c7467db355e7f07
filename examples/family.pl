% A family. What to see: a rule asks what other rules say, and a query asks in any direction: ./ask examples/family.pl 'ancestor(X, gus)'.

parent(adam,beth).
parent(adam,carl).
parent(beth,dina).
parent(beth,emil).
parent(carl,fay).
parent(dina,gus).

ancestor(X,Y) :- parent(X,Y).
ancestor(X,Z) :- parent(X,Y), ancestor(Y,Z).

cousin(X,Y) :- parent(P,X), parent(Q,Y), sibling(P,Q).

sibling(X,Y) :- parent(P,X), parent(P,Y), different(X,Y).

different(beth,carl).
different(carl,beth).

?- cousin(X,Y), ancestor(adam,X).
