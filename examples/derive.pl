% Symbolic differentiation, and a simplifier for what it gives.
derivative(X, X, 1).
derivative(C, X, 0) :- constant(C, X).
derivative(U + V, X, DU + DV) :- derivative(U, X, DU) & derivative(V, X, DV).
derivative(U - V, X, DU - DV) :- derivative(U, X, DU) & derivative(V, X, DV).
derivative(U * V, X, DU * V + U * DV) :- derivative(U, X, DU) & derivative(V, X, DV).
derivative(- U, X, - DU) :- derivative(U, X, DU).
derivative(sin(U), X, cos(U) * DU) :- derivative(U, X, DU).
derivative(cos(U), X, - sin(U) * DU) :- derivative(U, X, DU).

constant(a, _).
constant(b, _).
constant(N, _) :- digit(N).

digit(1).
digit(2).
digit(3).

simple(U + V, W) :- simple(U, A), simple(V, B), sum(A, B, W).
simple(U - V, W) :- simple(U, A), simple(V, B), difference(A, B, W).
simple(U * V, W) :- simple(U, A), simple(V, B), product(A, B, W).
simple(- U, - A) :- simple(U, A).
simple(sin(U), sin(A)) :- simple(U, A).
simple(cos(U), cos(A)) :- simple(U, A).
simple(x, x).
simple(0, 0).
simple(C, C) :- constant(C, x).

sum(0, B, B).
sum(A, 0, A) :- A \== 0.
sum(A, B, A + B) :- A \== 0, B \== 0.

difference(A, 0, A).
difference(A, B, A - B) :- B \== 0.

product(0, _, 0).
product(A, 0, 0) :- A \== 0.
product(1, B, B) :- B \== 0.
product(A, 1, A) :- A \== 0, A \== 1.
product(A, B, A * B) :- A \== 0, A \== 1, B \== 0, B \== 1.
