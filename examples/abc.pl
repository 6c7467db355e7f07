% The words of some a, as many b and as many c, which no context-free grammar has: the counter is an argument of each rule.
% What to see: the same rules read a word and make one: ./ask examples/abc.pl 'word(s(s(0)), Word, [])'. Whether the word has an a at all is the one choice
% that is left to be made; from then on each rule is told by the next letter, or by the counter: with --stats one fork is told.

word(N) --> as(N), bs(N), cs(N).

as(0) --> [].
as(s(N)) --> [a], as(N).

bs(0) --> [].
bs(s(N)) --> [b], bs(N).

cs(0) --> [].
cs(s(N)) --> [c], cs(N).

?- word(N, [a,a,a,b,b,b,c,c,c], []).
