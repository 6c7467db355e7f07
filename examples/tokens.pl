% A tokenizer over codes: words of small letters, numbers, and signs, with blanks between them.
% What to see: goals in braces right behind the first code of a rule are the guard of its clause, so that the next code decides and nothing is forked. Where
% a word or a number ends depends on the code behind it, which is left to the next token: clauses say so, and stand among the rules of the same name.

tokens([]) --> [].
tokens(Tokens) --> [32], tokens(Tokens).
tokens([word([C|Codes])|Tokens]) --> [C], { C >= 97, C =< 122 }, letters(Codes), tokens(Tokens).
tokens([number(N)|Tokens]) --> [C], { C >= 48, C =< 57, First is C - 48 }, digits(First, N), tokens(Tokens).
tokens([sign(C)|Tokens]) --> [C], { C > 32, C < 48 }, tokens(Tokens).

letters([C|Codes]) --> [C], { C >= 97, C =< 122 }, letters(Codes).
letters([], [], []).
letters([], [C|Rest], [C|Rest]) :- C < 97.
letters([], [C|Rest], [C|Rest]) :- C > 122.

digits(Before, N) --> [C], { C >= 48, C =< 57, Next is 10 * Before + C - 48 }, digits(Next, N).
digits(N, N, [], []).
digits(N, N, [C|Rest], [C|Rest]) :- C < 48.
digits(N, N, [C|Rest], [C|Rest]) :- C > 57.

% ab + 120*c
?- tokens(Tokens, [97,98,32,43,32,49,50,48,42,99], []).
