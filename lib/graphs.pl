% Paths in a graph. The program gives its edges, each once: edge(a, b). edge(b, c).
%
% Asks for: edge/2 of the program.

% path(?From, ?To, +Nodes, ?Path): Path is the list of nodes from From to To along edges, none twice. Nodes lists the nodes that it may use, each
% once, From and To with them: what is used is taken out of Nodes, so that no node is compared with another. Ends always.
path(From, To, Nodes, Path) :- taken(From, Nodes, Rest), way(From, To, Rest, Path).
way(To, To, _, [To]).
way(From, To, Nodes, [From|Path]) :- edge(From, Next), taken(Next, Nodes, Rest), way(Next, To, Rest, Path).

% taken(?Node, +Nodes, ?Rest): Rest is Nodes without Node.
taken(Node, [Node|Nodes], Nodes).
taken(Node, [Other|Nodes], [Other|Rest]) :- taken(Node, Nodes, Rest).

% walk(?From, ?To, +N, ?Walk): Walk is the list of nodes along N edges from From to To; nodes may come again. Ends always.
walk(To, To, 0, [To]).
walk(From, To, N, [From|Walk]) :- N > 0, M is N - 1, edge(From, Next), walk(Next, To, M, Walk).

% cycle(?Node, +Nodes, ?Path): Path leads from Node along edges back to it, no node but this twice. Ends always.
cycle(Node, Nodes, [Node|Path]) :- edge(Node, Next), path(Next, Node, Nodes, Path).

% linked(?X, ?Y): an edge in either direction.
linked(X, Y) :- edge(X, Y).
linked(X, Y) :- edge(Y, X).
