% Lists: building, counting, summing.
list(0, []).
list(N, [N|L]) :- N > 0, M is N - 1, list(M, L).

counted([], N, N).
counted([X|Xs], N, M) :- K is N + 1, counted(Xs, K, M).

sum([], S, S).
sum([X|Xs], S, T) :- U is S + X, sum(Xs, U, T).

even([]).
even([X|Xs]) :- odd(Xs).
odd([X|Xs]) :- even(Xs).

counting(Times, Length) :- list(Length, L), within(1, Times, I), counted(L, 0, K), sum(L, 0, S), even(L), fail.
counting(Times, Length).

within(Low, High, Low) :- Low =< High.
within(Low, High, X) :- Low < High, Next is Low + 1, within(Next, High, X).
