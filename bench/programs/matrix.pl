% The product of two square matrices as lists of rows.
row(0, S, []).
row(N, S, [E|Es]) :- N > 0, E is (N * S) mod 7, M is N - 1, row(M, S, Es).

rows(0, N, []).
rows(K, N, [R|Rs]) :- K > 0, row(N, K, R), J is K - 1, rows(J, N, Rs).

product([], Columns, []).
product([R|Rs], Columns, [P|Ps]) :- line(Columns, R, P), product(Rs, Columns, Ps).

line([], R, []).
line([C|Cs], R, [E|Es]) :- inner(R, C, 0, E), line(Cs, R, Es).

inner([], [], S, S).
inner([A|As], [B|Bs], S, E) :- T is S + A * B, inner(As, Bs, T, E).

total([], S, S).
total([R|Rs], S, T) :- sum(R, S, U), total(Rs, U, T).

sum([], S, S).
sum([E|Es], S, T) :- U is S + E, sum(Es, U, T).

matrix(N, S) :- rows(N, N, A), rows(N, N, B), product(A, B, P), total(P, 0, S).

matrices(Times) :- within(1, Times, I), matrix(60, S), fail.
matrices(Times).

within(Low, High, Low) :- Low =< High.
within(Low, High, X) :- Low < High, Next is Low + 1, within(Next, High, X).
