% Naive reverse of a list, many times over.
concatenated([], L, L).
concatenated([H|T], L, [H|R]) :- concatenated(T, L, R).

reversed([], []).
reversed([H|T], R) :- reversed(T, S), concatenated(S, [H], R).

range(N, N, [N]).
range(I, N, [I|L]) :- I < N, J is I + 1, range(J, N, L).

reversals(Times, Length) :- range(1, Length, L), within(1, Times, I), reversed(L, R), fail.
reversals(Times, Length).

within(Low, High, Low) :- Low =< High.
within(Low, High, X) :- Low < High, Next is Low + 1, within(Next, High, X).
