% A sum over a tree that is never built.
tsum(0, 1).
tsum(N, S) :- N > 0, M is N - 1, tsum(M, A), tsum(M, B), S is A + B.
