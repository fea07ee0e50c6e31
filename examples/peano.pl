% Arithmetic on the numbers z, s(z), s(s(z)), ..
plus(z, Y, Y).
plus(s(X), Y, s(Z)) :- plus(X, Y, Z).

times(z, _, z).
times(s(X), Y, Z) :- times(X, Y, P), plus(Y, P, Z).

power(_, z, s(z)).
power(X, s(N), Z) :- power(X, N, P), times(X, P, Z).

value(z, 0).
value(s(X), N) :- value(X, M), N is M + 1.

product(M, N, P) :- peano(X, M), peano(Y, N), times(X, Y, Z), value(Z, P).
peano(z, 0).
peano(s(X), N) :- N > 0, M is N - 1, peano(X, M).
