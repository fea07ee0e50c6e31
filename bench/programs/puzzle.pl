% SEND + MORE = MONEY, column by column, with carries.
digit(0). digit(1). digit(2). digit(3). digit(4). digit(5). digit(6). digit(7). digit(8). digit(9).

carry(0). carry(1).

apart(X, []).
apart(X, [Y|Ys]) :- X =\= Y, apart(X, Ys).

column(A, B, C, Sum, Carry) :- T is A + B + C, Sum is T mod 10, Carry is T // 10.

solve([S, E, N, D, M, O, R, Y]) :-
    M = 1,
    digit(D), apart(D, [M]),
    digit(E), apart(E, [M, D]),
    column(D, E, 0, Y, C1), apart(Y, [M, D, E]),
    digit(N), apart(N, [M, D, E, Y]),
    digit(R), apart(R, [M, D, E, Y, N]),
    column(N, R, C1, E, C2),
    digit(O), apart(O, [M, D, E, Y, N, R]),
    column(E, O, C2, N, C3),
    digit(S), apart(S, [M, D, E, Y, N, R, O]), S > 0,
    column(S, M, C3, O, M).

puzzles(Times) :- within(1, Times, I), solve(Letters), fail.
puzzles(Times).

within(Low, High, Low) :- Low =< High.
within(Low, High, X) :- Low < High, Next is Low + 1, within(Next, High, X).
