% Symbolic differentiation of growing products, many times over.
d(X, X, 1).
d(X, C, 0) :- constant(C).
d(X, U + V, DU + DV) :- d(X, U, DU), d(X, V, DV).
d(X, U - V, DU - DV) :- d(X, U, DU), d(X, V, DV).
d(X, U * V, DU * V + U * DV) :- d(X, U, DU), d(X, V, DV).
d(X, power(U, N), N * power(U, M) * DU) :- M is N - 1, d(X, U, DU).
d(X, sin(U), cos(U) * DU) :- d(X, U, DU).
constant(0).
constant(1).
constant(2).
constant(a).
constant(b).

expression(0, x).
expression(N, (E + a) * sin(x)) :- N > 0, M is N - 1, expression(M, E).

derivatives(Times, Size) :- expression(Size, E), within(1, Times, I), d(x, E, D), fail.
derivatives(Times, Size).

within(Low, High, Low) :- Low =< High.
within(Low, High, X) :- Low < High, Next is Low + 1, within(Next, High, X).
