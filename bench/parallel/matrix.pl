% The product of a matrix with itself, row by row.
row(0, K, []).
row(N, K, [E | R]) :- N > 0, M is N - 1, E is (N * K) mod 7, row(M, K, R).
rows(0, N, []).
rows(K, N, [R | Rs]) :- K > 0, J is K - 1, row(N, K, R), rows(J, N, Rs).
product([], M, []).
product([R | Rs], M, [P | Ps]) :- times(M, R, P), product(Rs, M, Ps).
times([], R, []).
times([C | Cs], R, [X | Xs]) :- inner(C, R, 0, X), times(Cs, R, Xs).
inner([], [], S, S).
inner([A | As], [B | Bs], S0, S) :- S1 is S0 + A * B, inner(As, Bs, S1, S).
total([], 0).
total([R | Rs], S) :- line(R, A), total(Rs, B), S is A + B.
line([], 0).
line([E | R], S) :- line(R, T), S is E + T.
run(N, S) :- rows(N, N, M), product(M, M, P), total(P, S).
