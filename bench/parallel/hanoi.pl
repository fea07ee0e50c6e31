% The towers of Hanoi: how many moves there are.
hanoi(0, A, B, C, 0).
hanoi(N, A, B, C, M) :- N > 0, K is N - 1, hanoi(K, A, C, B, M1), hanoi(K, C, B, A, M2), M is M1 + M2 + 1.
