% How often a number stands in the lists of a list.
list(0, K, []).
list(N, K, [E | R]) :- N > 0, M is N - 1, E is (N * K) mod 10, list(M, K, R).
lists(0, []).
lists(K, [L | Ls]) :- K > 0, J is K - 1, list(500, K, L), lists(J, Ls).
count([], X, 0).
count([E | R], X, N) :- E =:= X, count(R, X, M), N is M + 1.
count([E | R], X, N) :- E =\= X, count(R, X, N).
occurrences([], X, 0).
occurrences([L | Ls], X, N) :- count(L, X, A), occurrences(Ls, X, B), N is A + B.
run(K, N) :- lists(K, Ls), occurrences(Ls, 3, N).
