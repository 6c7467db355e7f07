% Reads a text of the language from the file that is named last, and writes the lines of its query's answers, as SWI-Prolog finds them, with the
% occurs check. With the word `wait`, arithmetic waits until it is ground (when/2), as it does in the language. On standard error it writes how many
% milliseconds of a processor the search and the writing took, without the start of SWI-Prolog and the reading.

:- initialization(main, main).

main(Words) :-
    set_prolog_flag(occurs_check, true),
    set_prolog_flag(stack_limit, 8_000_000_000),
    (   append(_, [wait,File], Words) -> How = wait ; append(_, [plain,File], Words), How = plain ),
    style_check(-singleton), style_check(-discontiguous),
    open(File, read, Stream),
    load(Stream, How, Query, Names),
    close(Stream),
    compile_predicates([]),
    include(is_shown, Names, Shown),
    statistics(cputime, Start),
    (   query(How, Query, Goal), catch(program:Goal, _, fail), line(Shown), fail
    ;   writeln('% complete')
    ),
    statistics(cputime, End),
    Milliseconds is (End - Start) * 1000,
    format(user_error, "~1f~n", [Milliseconds]).

load(Stream, How, Query, Names) :-
    read_term(Stream, Term, [variable_names(Bound)]),
    (   Term == end_of_file -> true
    ;   Term = (?- Goal) -> Query = Goal, Names = Bound, load(Stream, How, Query, Names)
    ;   clause_of(How, Term, Clause), assertz(program:Clause), load(Stream, How, Query, Names)
    ).

clause_of(How, (Head :- Body), (Head :- Goal)) :- !, query(How, Body, Goal).
clause_of(How, (Head --> Body), Clause) :- !, dcg_translate_rule((Head --> Body), Rule), clause_of(How, Rule, Clause).
clause_of(_, Fact, Fact).

query(How, (A, B), (C, D)) :- !, query(How, A, C), query(How, B, D).
query(How, (A ; B), (C ; D)) :- !, query(How, A, C), query(How, B, D).
query(wait, X is E, when(ground(E), catch(X is E, _, fail))) :- !.
query(wait, Test, when(ground(Test), catch(Test, _, fail))) :- is_comparison(Test), !.
query(_, Goal, Goal).

is_comparison(Test) :- functor(Test, Name, 2), memberchk(Name, [<, >, =<, >=, =:=, =\=]).

is_shown(Name = _) :- \+ sub_atom(Name, 0, 1, _, '_').

line([]) :- !, writeln(true).
line(Shown) :-
    \+ \+ ( term_variables(Shown, Variables), number(Variables, 0), bindings(Shown) ),
    nl.

number([], _).
number(['$VAR'(Name)|Rest], N) :- atom_concat('_', N, Name), M is N + 1, number(Rest, M).

bindings([Name = Value]) :- !, binding(Name, Value).
bindings([Name = Value|Rest]) :- binding(Name, Value), write(', '), bindings(Rest).

binding(Name, Value) :-
    format("~w = ", [Name]),
    write_term(Value, [quoted(true), numbervars(true), ignore_ops(false), max_depth(0)]).
