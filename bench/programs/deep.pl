% A recursion that isn't the last call, a million deep.
down(0, 0).
down(N, S) :- N > 0, M is N - 1, down(M, T), S is T + 1.
