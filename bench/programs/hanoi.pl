% The towers of Hanoi: how many moves.
hanoi(0, A, B, C, 0).
hanoi(N, A, B, C, Moves) :-
    N > 0, M is N - 1,
    hanoi(M, A, C, B, First), hanoi(M, C, B, A, Second),
    Moves is First + 1 + Second.

towers(Times) :- within(1, Times, I), hanoi(15, a, b, c, Moves), fail.
towers(Times).

within(Low, High, Low) :- Low =< High.
within(Low, High, X) :- Low < High, Next is Low + 1, within(Next, High, X).
