% Reads a text of the language from the file that is named last, and writes the tree of a plain Prolog search for its query, in the form of `andorra tree`:
% a line for each node, the depth first. The leftmost goal is taken first, and where the heads of two clauses or more fit it, it is a fork. Arithmetic waits
% until it is ground, as in the language. It stops after MOST lines, and writes on standard error how many nodes there are of each kind.
%
%     swipl yard/search_tree.pl MOST|all FILE

:- initialization(main, main).
:- dynamic clause_of/3, written/1, most/1, count/2.

main(Words) :-
    set_prolog_flag(occurs_check, true),
    Words = [Most, File],
    (   Most == all -> assertz(most(inf)) ; atom_number(Most, Number), assertz(most(Number)) ), assertz(written(0)),
    forall(member(Kind, [fork, failed, answer, floundered]), assertz(count(Kind, 0))),
    open(File, read, Stream),
    load(Stream, 1, Query, Names),
    close(Stream),
    exclude(is_hidden, Names, Shown),
    items(Query, Items, []),
    catch(walk(Items, [], 0, Shown), enough, writeln(user_error, 'there are more')),
    forall(count(Kind, Count), format(user_error, "~w ~w~n", [Count, Kind])).

is_hidden(Name = _) :- sub_atom(Name, 0, 1, _, '_').

load(Stream, Number, Query, Names) :-
    read_term(Stream, Term, [variable_names(Bound)]),
    (   Term == end_of_file -> true
    ;   Term = (?- Goal) -> Query = Goal, Names = Bound, load(Stream, Number, Query, Names)
    ;   ( Term = (Head :- Body) -> true ; Head = Term, Body = true ),
        assertz(clause_of(Number, Head, Body)), Next is Number + 1, load(Stream, Next, Query, Names)
    ).

items((A, B), Items, Rest) :- !, items(A, Items, Middle), items(B, Middle, Rest).
items(true, Rest, Rest) :- !.
items(Item, [Item|Rest], Rest).

% The rest of a branch: its goals, the arithmetic that waits, its depth.
walk(Goals, Waiting, Depth, Shown) :-
    (   run(Waiting, Left) -> go_on(Goals, Left, Depth, Shown) ; tell(failed, Depth, '') ).

go_on([], [], Depth, Shown) :- !, line(Shown, Line), tell(answer, Depth, Line).
go_on([], [_|_], Depth, Shown) :- !, line(Shown, Line), tell(floundered, Depth, Line).
go_on([fail|_], _, Depth, _) :- !, tell(failed, Depth, '').
go_on([A = B|Goals], Waiting, Depth, Shown) :- !,
    (   \+ A = B -> tell(failed, Depth, '') ; \+ \+ ( A = B, walk(Goals, Waiting, Depth, Shown) ) ).
go_on([Goal|Goals], Waiting, Depth, Shown) :- is_arithmetic(Goal), !,
    append(Waiting, [Goal], All), walk(Goals, All, Depth, Shown).
go_on([Goal|Goals], Waiting, Depth, Shown) :-
    findall(Number, clause_of(Number, Goal, _), Numbers),
    (   Numbers = [] -> tell(failed, Depth, '')
    ;   Numbers = [Number] -> take(Number, Goal, Goals, Waiting, Depth, Shown)
    ;   atomic_list_concat(Numbers, ' ', Text), tell(fork, Depth, Text), Below is Depth + 1,
        forall(member(Number, Numbers), take(Number, Goal, Goals, Waiting, Below, Shown))
    ).

take(Number, Goal, Goals, Waiting, Depth, Shown) :-
    \+ \+ ( clause_of(Number, Goal, Body), items(Body, All, Goals), walk(All, Waiting, Depth, Shown) ).

is_arithmetic(Goal) :- functor(Goal, Name, 2), memberchk(Name, [is, <, >, =<, >=, =:=, =\=]).

% Runs what is ground, again and again, as long as something is.
run(Waiting, Left) :-
    (   select(Goal, Waiting, Others), can_run(Goal) -> catch(Goal, _, fail), run(Others, Left) ; Left = Waiting ).

can_run(_ is Value) :- !, ground(Value).
can_run(Test) :- ground(Test).

tell(Kind, Depth, Text) :-
    retract(written(Lines)), More is Lines + 1, assertz(written(More)),
    most(Most),
    (   More > Most -> throw(enough)
    ;   Text == '' -> format("~w ~w~n", [Depth, Kind])
    ;   format("~w ~w ~w~n", [Depth, Kind, Text])
    ),
    retract(count(Kind, Old)), New is Old + 1, assertz(count(Kind, New)).

line([], true) :- !.
line(Shown, Line) :-
    copy_term(Shown, Copy), term_variables(Copy, Variables), number(Variables, 0),
    findall(Text, ( member(Name = Value, Copy), format(atom(Text), "~w = ~W", [Name, Value, [quoted(true), numbervars(true)]]) ), Texts),
    atomic_list_concat(Texts, ', ', Line).

number([], _).
number(['$VAR'(Name)|Rest], N) :- atom_concat('_', N, Name), M is N + 1, number(Rest, M).
