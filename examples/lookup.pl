% Two look-ups that mean the same.
% What to see: ./ask examples/lookup.pl 'value(5, V)' --stats makes no fork, 'late_value(5, V)' one, which fails. The guard of `value_in` stands
% right behind its head, where it decides which clause is taken; the test of `late_in` stands behind a call.

table([1-one, 2-two, 3-three, 5-five, 7-seven, 11-eleven]).

value(Key, Value) :- table(Pairs), value_in(Key, Pairs, Value).
value_in(Key, [Key-Value|_], Value).
value_in(Key, [Other-_|Pairs], Value) :- Key =\= Other, value_in(Key, Pairs, Value).

late_value(Key, Value) :- table(Pairs), late_in(Key, Pairs, Value).
late_in(Key, [Key-Value|_], Value).
late_in(Key, [Other-_|Pairs], Value) :- late_in(Key, Pairs, Value), Key =\= Other.

?- value(5, V), value(7, W), late_value(11, X).
