% An interpreter in the language itself: clauses are facts, and a budget ends what would go on without end.
rule(edge(a, b), []).
rule(edge(b, c), []).
rule(edge(c, a), []).
rule(path(X, Y), [edge(X, Y)]).
rule(path(X, Z), [edge(X, Y), path(Y, Z)]).

solve([]).
solve([Goal | Goals]) :- rule(Goal, Body), append(Body, Goals, Next), solve(Next).

append([], Ys, Ys).
append([X | Xs], Ys, [X | Zs]) :- append(Xs, Ys, Zs).

% The same with a depth, so that it ends.
within([], _).
within([Goal | Goals], Depth) :-
    Depth > 0,
    Less is Depth - 1,
    rule(Goal, Body),
    within(Body, Less) & within(Goals, Depth).
