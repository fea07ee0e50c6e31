% Runs a query over a program of the dialect in SWI-Prolog itself, compiled, with the occurs check, for at most so many
% inferences, and prints how many it made and the seconds of processor time. Groups are conjunctions, checks left out.
%   swipl --traditional -q bench/native.pl -- FILE LIMIT < QUERY
:- set_prolog_flag(occurs_check, true).
:- initialization(main, main).

main([File, Text]) :-
    atom_number(Text, Limit),
    op(975, xfx, dialect:(=>)),
    op(950, xfy, dialect:(&)),
    open(File, read, Stream),
    load(Stream),
    close(Stream),
    read_term(Term, [module(dialect)]),
    ( Term = (?- Body) -> true ; Body = Term ),
    plain(Body, Goal),
    statistics(inferences, Before),
    statistics(process_cputime, Start),
    catch(call_with_inference_limit(( dialect:Goal, fail ; true ), Limit, _), _, true),
    statistics(process_cputime, End),
    statistics(inferences, After),
    Calls is After - Before,
    Seconds is End - Start,
    format("~d ~6f~n", [Calls, Seconds]).

load(Stream) :-
    read_term(Stream, Term, [module(dialect)]),
    (   Term == end_of_file -> true
    ;   ( Term = (Head :- Body) -> plain(Body, Goal) ; Head = Term, Goal = true ),
        functor(Head, Name, Arity),
        functor(Any, Name, Arity),
        ( predicate_property(dialect:Any, dynamic) -> true
        ; catch(redefine_system_predicate(dialect:Any), _, true), dynamic(dialect:Name/Arity)
        ),
        assertz((dialect:Head :- dialect:Goal)),
        load(Stream)
    ).

plain(Goal, Goal) :- var(Goal), !.
plain((A, B), (C, D)) :- !, plain(A, C), plain(B, D).
plain(&(A, B), (C, D)) :- !, plain(A, C), plain(B, D).
plain((A ; B), (C ; D)) :- !, plain(A, C), plain(B, D).
plain(=>(_, B), C) :- !, plain(B, C).
plain(Goal, Goal).
