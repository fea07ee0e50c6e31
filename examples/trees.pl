% Trees, worked on from both sides: groups that hold always, and groups with checks.
tree(0, leaf(1)).
tree(N, node(Left, Right)) :- N > 0, M is N - 1, tree(M, Left), tree(M, Right).

leaves(leaf(N), N).
leaves(node(Left, Right), N) :-
    ( indep(Left, Right) => leaves(Left, A) & leaves(Right, B) ),
    N is A + B.

mirror(leaf(X), leaf(X)).
mirror(node(L, R), node(S, M)) :-
    ( (indep(L, R), indep(M, S), indep(L, S), indep(R, M)) => mirror(L, M) & mirror(R, S) ).

fibonacci(0, 0).
fibonacci(1, 1).
fibonacci(N, F) :-
    N > 1, A is N - 1, B is N - 2,
    fibonacci(A, X) & fibonacci(B, Y),
    F is X + Y.
