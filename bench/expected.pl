% The lines that `andprolog run` is to write, from another Prolog: a person makes the examples' files again with
%
%   swipl --traditional -q bench/expected.pl -- examples/hanoi.pl < examples/hanoi.queries > examples/hanoi.expected
%
% (`bench/expected` does it for every example). It takes SWI-Prolog's reader, its unification with the occurs check and
% its own search, counts the calls, and prints answers as docs/LANGUAGE.md says. It judges no refusal: what it is given
% must be accepted. Options: --budget N and --answers N; --calls on writes before each line how many calls were made until then.

:- set_prolog_flag(occurs_check, true).
:- dynamic rule/2.

% The dialect's operators and no others, in a module that only the dialect's texts are read in.
hidden(fx, [dynamic, discontiguous, initialization, table, module_transparent, multifile, public, thread_local,
            thread_initialization, volatile, meta_predicate, $, ?]).
hidden(fy, [+, \]).
hidden(xfx, [as, >:<, :<, :=, =@=, \=@=, **]).
hidden(xfy, [*->, :, ^, '|']).
hidden(yfx, [xor, div, rdiv, divs, tdiv, <<, >>, /, /\, \/]).

operators :-
    forall(( hidden(Type, Names), member(Name, Names) ), catch(op(0, Type, dialect:Name), _, true)),
    op(975, xfx, dialect:(=>)),
    op(950, xfy, dialect:(&)).

:- initialization(main, main).

main(Words) :-
    Words = [File|Options],
    operators,
    number_option('--budget', Options, 10000000, Budget),
    number_option('--answers', Options, 1000000, Limit),
    ( append(_, ['--calls', on|_], Options) -> Tells = true ; Tells = false ),
    nb_setval(tells, Tells),
    open(File, read, Stream),
    load(Stream),
    close(Stream),
    queries(Budget, Limit).

number_option(Name, Options, _, Number) :-
    append(_, [Name, Text|_], Options), !,
    atom_number(Text, Number).
number_option(_, _, Number, Number).

load(Stream) :-
    read_term(Stream, Term, [module(dialect)]),
    (   Term == end_of_file -> true
    ;   ( Term = (Head :- Body) -> true ; Head = Term, Body = true_body ),
        goals(Body, Goals),
        assertz(rule(Head, Goals)),
        load(Stream)
    ).

queries(Budget, Limit) :-
    read_term(Term, [variable_names(Names), module(dialect)]),
    (   Term == end_of_file -> true
    ;   ( Term = (?- Body) -> true ; Body = Term ),
        goals(Body, Goals),
        block(Goals, Names, Budget, Limit),
        queries(Budget, Limit)
    ).

% A body as a list of goals. Groups are conjunctions; checks are left out.
goals(true_body, []) :- !.
goals((A, B), Goals) :- !, goals(A, First), goals(B, Second), append(First, Second, Goals).
goals(&(A, B), Goals) :- !, goals(A, First), goals(B, Second), append(First, Second, Goals).
goals(=>(_, B), Goals) :- !, goals(B, Goals).
goals(Goal, [Goal]).

block(Goals, Names, Budget, Limit) :-
    nb_setval(calls, 0),
    nb_setval(answers, 0),
    catch(( run(Goals, Budget), answer(Names, Limit), fail ; End = 'no more.' ), end(End), true),
    told_calls, write(End), nl.

told_calls :- nb_getval(tells, true), !, nb_getval(calls, Calls), write(Calls), write(' ').
told_calls.

answer(Names, Limit) :-
    told_calls,
    \+ \+ line(Names),
    nb_getval(answers, Before),
    Now is Before + 1,
    nb_setval(answers, Now),
    ( Now >= Limit -> throw(end('stopped.')) ; true ).

% Sequential search: the leftmost goal first, clauses in textual order, each call counted.
run([], _).
run([Goal|Goals], Budget) :-
    nb_getval(calls, Before),
    ( Before >= Budget -> throw(end('budget spent.')) ; true ),
    Now is Before + 1,
    nb_setval(calls, Now),
    children(Goal, Goals, Next),
    run(Next, Budget).

% A disjunction is a goal of its own: one call of a predicate with two clauses.
children((A ; B), Goals, Next) :- !,
    ( goals(A, First) ; goals(B, First) ),
    append(First, Goals, Next).
children(Goal, Goals, Goals) :- builtin(Goal), !, holds(Goal).
children(Goal, Goals, Next) :-
    functor(Goal, Name, Arity),
    functor(Head, Name, Arity),
    rule(Head, Body),
    unify_with_occurs_check(Goal, Head),
    append(Body, Goals, Next).

builtin(true).
builtin(fail).
builtin(Goal) :- functor(Goal, Name, 2), memberchk(Name, [=, \=, ==, \==, is, =:=, =\=, <, >, =<, >=]).

holds(true).
holds(A = B) :- unify_with_occurs_check(A, B).
holds(A \= B) :- \+ unify_with_occurs_check(A, B).
holds(A == B) :- A == B.
holds(A \== B) :- A \== B.
holds(A is B) :- value(B, N), unify_with_occurs_check(A, N).
holds(Test) :-
    Test =.. [Name, A, B],
    memberchk(Name, [=:=, =\=, <, >, =<, >=]),
    value(A, M), value(B, N),
    Compare =.. [Name, M, N],
    call(Compare).

value(Term, _) :- var(Term), !, fail.
value(Term, Term) :- integer(Term), !, fits(Term).
value(A + B, N) :- value(A, M), value(B, K), N is M + K, fits(N).
value(A - B, N) :- value(A, M), value(B, K), N is M - K, fits(N).
value(A * B, N) :- value(A, M), value(B, K), N is M * K, fits(N).
value(A // B, N) :- value(A, M), value(B, K), K =\= 0, N is truncate(M rdiv K), fits(N).
value(A rem B, N) :- value(A, M), value(B, K), K =\= 0, N is M rem K.
value(A mod B, N) :- value(A, M), value(B, K), K =\= 0, N is M mod K.
value(- A, N) :- value(A, M), N is -M, fits(N).

fits(N) :- N >= -9223372036854775808, N =< 9223372036854775807.

% Answer lines.
line(Names) :-
    shown(Names, Shown),
    values(Shown, Values),
    term_variables(Values, Variables),
    number_variables(Variables, 1),
    ( Shown == [] -> write(true) ; write_pairs(Shown) ),
    nl.

shown([], []).
shown([Name = Value|Rest], Shown) :-
    ( sub_atom(Name, 0, 1, _, '_') -> Shown = More ; Shown = [Name = Value|More] ),
    shown(Rest, More).

values([], []).
values([_ = Value|Rest], [Value|Values]) :- values(Rest, Values).

number_variables([], _).
number_variables(['$variable'(N)|Rest], N) :- M is N + 1, number_variables(Rest, M).

write_pairs([Name = Value]) :- !, write_pair(Name, Value).
write_pairs([Name = Value|Rest]) :- write_pair(Name, Value), write(', '), write_pairs(Rest).

write_pair(Name, Value) :- write(Name), write(' = '), text(Value).

text('$variable'(N)) :- !, write('_'), write(N).
text(Term) :- integer(Term), !, write(Term).
text([Head|Tail]) :- !, write('['), text(Head), tail(Tail), write(']').
text(Term) :- atom(Term), !, atom_text(Term).
text(Term) :-
    Term =.. [Name, First|Rest],
    atom_text(Name), write('('), text(First), rest(Rest), write(')').

tail([]) :- !.
tail([Head|Tail]) :- !, write(','), text(Head), tail(Tail).
tail(Term) :- write('|'), text(Term).

rest([]).
rest([Term|Rest]) :- write(','), text(Term), rest(Rest).

atom_text(Atom) :- memberchk(Atom, ['[]', [], ;, !]), !, write(Atom).
atom_text(Atom) :- atom_codes(Atom, Codes), plain(Codes), !, write(Atom).
atom_text(Atom) :- atom_codes(Atom, Codes), write(''''), quoted(Codes), write('''').

plain([First|Rest]) :- First >= 0'a, First =< 0'z, !, forall(member(C, Rest), name_code(C)).
plain(Codes) :-
    Codes \== [], Codes \== ".", \+ append("/*", _, Codes),
    forall(member(C, Codes), memberchk(C, "+-*/\\^<>=~:.?@#&$")).

name_code(C) :- ( C >= 0'a, C =< 0'z ; C >= 0'A, C =< 0'Z ; C >= 0'0, C =< 0'9 ; C =:= 0'_ ), !.

quoted([]).
quoted([C|Rest]) :- escaped(C, Codes), atom_codes(Text, Codes), write(Text), quoted(Rest).

escaped(0'\\, "\\\\") :- !.
escaped(0''', "\\'") :- !.
escaped(10, "\\n") :- !.
escaped(9, "\\t") :- !.
escaped(C, [C]).
