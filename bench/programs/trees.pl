% Binary trees: building, walking, mirroring.
tree(0, leaf).
tree(N, node(L, N, R)) :- N > 0, M is N - 1, tree(M, L), tree(M, R).

mirror(leaf, leaf).
mirror(node(L, X, R), node(N, X, M)) :- mirror(L, M), mirror(R, N).

size(leaf, 0).
size(node(L, X, R), N) :- size(L, A), size(R, B), N is A + 1 + B.

same(leaf, leaf).
same(node(A, X, B), node(C, X, D)) :- same(A, C), same(B, D).

trees(Depth, Size) :- tree(Depth, T), mirror(T, M), mirror(M, S), same(T, S), size(M, Size).

forest(Times) :- within(1, Times, I), trees(14, Size), fail.
forest(Times).

within(Low, High, Low) :- Low =< High.
within(Low, High, X) :- Low < High, Next is Low + 1, within(Next, High, X).
