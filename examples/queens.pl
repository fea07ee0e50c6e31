% N queens on a board of N rows, none attacking another. Row by row, each queen takes a free column.
queens(N, Queens) :- columns(N, Columns), place(Columns, [], Queens).

columns(0, []).
columns(N, [N | Columns]) :- N > 0, M is N - 1, columns(M, Columns).

place([], Queens, Queens).
place(Columns, Placed, Queens) :-
    select(Queen, Columns, Rest),
    safe(Queen, 1, Placed),
    place(Rest, [Queen | Placed], Queens).

select(X, [X | Xs], Xs).
select(X, [Y | Ys], [Y | Zs]) :- select(X, Ys, Zs).

safe(_, _, []).
safe(Queen, Distance, [Other | Placed]) :-
    Other =\= Queen + Distance,
    Other =\= Queen - Distance,
    Next is Distance + 1,
    safe(Queen, Next, Placed).
