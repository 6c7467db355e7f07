% Lists of pairs Key-Value.

% pairs_keys_values(?Pairs, ?Keys, ?Values), pairs_keys(?Pairs, ?Keys), pairs_values(?Pairs, ?Values): the two columns.
% Determinate where one of the lists is proper.
pairs_keys_values([], [], []).
pairs_keys_values([Key-Value|Pairs], [Key|Keys], [Value|Values]) :- pairs_keys_values(Pairs, Keys, Values).
pairs_keys([], []).
pairs_keys([Key-_|Pairs], [Key|Keys]) :- pairs_keys(Pairs, Keys).
pairs_values([], []).
pairs_values([_-Value|Pairs], [Value|Values]) :- pairs_values(Pairs, Values).

% flip_pairs(?Pairs, ?Flipped): each Key-Value as Value-Key. Determinate where one of the lists is proper.
flip_pairs([], []).
flip_pairs([Key-Value|Pairs], [Value-Key|Flipped]) :- flip_pairs(Pairs, Flipped).

% paired(?Key, ?Pairs, ?Value): Key-Value stands in Pairs; an answer for each place. Makes a fork at each place where Key may be.
paired(Key, [Key-Value|_], Value).
paired(Key, [_|Pairs], Value) :- paired(Key, Pairs, Value).

% value_of(+Key, +Pairs, ?Value): the first value of a key. Determinate, as its guard decides; for whole numbers as keys.
value_of(Key, [Key-Value|_], Value).
value_of(Key, [Other-_|Pairs], Value) :- Key =\= Other, value_of(Key, Pairs, Value).

% keysort(+Pairs, ?Sorted): from the least key on, pairs with equal keys as they stood. Determinate; for whole numbers as keys.
keysort(Pairs, Sorted) :- keysort_size(Pairs, 0, N), keysort_first(N, Pairs, Sorted, []).
keysort_size([], N, N).
keysort_size([_|Pairs], Before, N) :- Next is Before + 1, keysort_size(Pairs, Next, N).

% the first N of Pairs, sorted, and the rest of Pairs
keysort_first(0, Pairs, [], Pairs).
keysort_first(1, [Pair|Pairs], [Pair], Pairs).
keysort_first(N, Pairs, Sorted, Rest) :-
    N > 1, A is N // 2, B is N - A,
    keysort_first(A, Pairs, As, Mid), keysort_first(B, Mid, Bs, Rest), keysort_merge(As, Bs, Sorted).
keysort_merge([], Pairs, Pairs).
keysort_merge([Pair|Pairs], [], [Pair|Pairs]).
keysort_merge([K-V|As], [L-W|Bs], [K-V|Cs]) :- K =< L, keysort_merge(As, [L-W|Bs], Cs).
keysort_merge([K-V|As], [L-W|Bs], [L-W|Cs]) :- K > L, keysort_merge([K-V|As], Bs, Cs).
