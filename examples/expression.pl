% Arithmetic expressions: a list of tokens becomes a tree, and the tree a number.
% What to see: a rule is a clause with two arguments more, the tokens before and behind what it reads, so that the query calls `sum` with three; what
% stands to the left of an operator is handed on, so that `-` joins to the left and no rule calls itself first:
%
%     ./ask examples/expression.pl 'sum(T, [n(1),-,n(2),-,n(3)], [])'

sum(Tree) --> product(First), sums(First, Tree).

sums(Tree, Tree) --> [].
sums(Left, Tree) --> [+], product(Right), sums(Left + Right, Tree).
sums(Left, Tree) --> [-], product(Right), sums(Left - Right, Tree).

product(Tree) --> factor(First), products(First, Tree).

products(Tree, Tree) --> [].
products(Left, Tree) --> [*], factor(Right), products(Left * Right, Tree).

factor(N) --> [n(N)].
factor(-Tree) --> [-], factor(Tree).
factor(Tree) --> ['('], sum(Tree), [')'].

?- sum(Tree, [n(2), *, '(', n(3), +, n(4), ')', -, n(5)], []), Value is Tree.
