% The usual relations on lists, forwards and backwards.
append([], Ys, Ys).
append([X | Xs], Ys, [X | Zs]) :- append(Xs, Ys, Zs).

member(X, [X | _]).
member(X, [_ | Xs]) :- member(X, Xs).

select(X, [X | Xs], Xs).
select(X, [Y | Ys], [Y | Zs]) :- select(X, Ys, Zs).

reverse(Xs, Ys) :- reverse(Xs, [], Ys).

reverse([], Ys, Ys).
reverse([X | Xs], Ys, Zs) :- reverse(Xs, [X | Ys], Zs).

length([], 0).
length([_ | Xs], N) :- length(Xs, M), N is M + 1.

permutation([], []).
permutation(Xs, [X | Ys]) :- select(X, Xs, Zs), permutation(Zs, Ys).

prefix(Xs, Ys) :- append(Xs, _, Ys).
last(Xs, X) :- append(_, [X], Xs).
