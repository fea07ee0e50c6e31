% Each first queen's solutions are counted apart.
range(N, N, [N]).
range(L, H, [L | R]) :- L < H, M is L + 1, range(M, H, R).
pick(X, [X | R], R).
pick(X, [Y | R], [Y | S]) :- pick(X, R, S).
safe(Q, D, []).
safe(Q, D, [P | Ps]) :- Q =\= P + D, Q =\= P - D, E is D + 1, safe(Q, E, Ps).
place([], Qs, Qs).
place(Left, Qs, Out) :- pick(Q, Left, Rest), safe(Q, 1, Qs), place(Rest, [Q | Qs], Out).
first(N, K, Out) :- range(1, N, All), pick(K, All, Rest), place(Rest, [K], Out).
all(N, N, [Q]) :- first(N, N, Q).
all(K, N, [Q | Qs]) :- K < N, J is K + 1, first(N, K, Q), all(J, N, Qs).
