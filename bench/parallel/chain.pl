% A chain of small goals: none of them is worth another worker.
small(N, M) :- M is N * 2.
chain(0, 0).
chain(N, S) :- N > 0, M is N - 1, small(N, A), chain(M, B), S is (A + B) mod 1000.
