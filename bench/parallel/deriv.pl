% Derivatives of a large expression.
expression(0, x).
expression(N, A * B + C) :- N > 0, M is N - 1, expression(M, A), expression(M, B), expression(M, C).
d(x, 1).
d(A + B, DA + DB) :- d(A, DA), d(B, DB).
d(A * B, A * DB + B * DA) :- d(A, DA), d(B, DB).
size(x, 1).
size(1, 1).
size(A + B, N) :- size(A, NA), size(B, NB), N is NA + NB.
size(A * B, N) :- size(A, NA), size(B, NB), N is NA + NB.
run(N, S) :- expression(N, E), d(E, D), size(D, S).
