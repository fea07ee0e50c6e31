% The work of each number of a range, added up by halves.
work(0, 0).
work(N, S) :- N > 0, M is N - 1, work(M, T), S is (T + N) mod 1000.
sum(N, N, S) :- work(200, S).
sum(L, H, S) :- L < H, M is (L + H) // 2, K is M + 1, sum(L, M, A), sum(K, H, B), S is A + B.
