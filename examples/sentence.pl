% A small English: a sentence and its tree.
% What to see: a rule stands for a clause with two arguments more, the words before and behind what it takes; so the query calls `sentence` with three, and the
% same rules take a sentence apart and make some.

sentence(s(N, V)) --> noun_phrase(N), verb_phrase(V).

noun_phrase(np(D, N)) --> determiner(D), noun(N).
verb_phrase(vp(V, N)) --> verb(V), noun_phrase(N).

determiner(d(the)) --> [the].
determiner(d(a)) --> [a].
noun(n(cat)) --> [cat].
noun(n(mouse)) --> [mouse].
verb(v(sees)) --> [sees].

?- Words = [the,cat,sees|_], sentence(Tree, Words, []).
