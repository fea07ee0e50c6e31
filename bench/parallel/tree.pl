% A sum over a tree that is built first.
tree(0, leaf(1)).
tree(N, node(L, R)) :- N > 0, M is N - 1, tree(M, L), tree(M, R).
total(leaf(N), N).
total(node(L, R), N) :- total(L, A), total(R, B), N is A + B.
run(N, S) :- tree(N, T), total(T, S).
