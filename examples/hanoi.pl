% The towers of Hanoi. The moves before and behind the largest disc's move are found side by side.
hanoi(0, _, _, _, []).
hanoi(N, From, To, By, Moves) :-
    N > 0,
    M is N - 1,
    ( (ground(M), ground(From), ground(To), ground(By), indep(Before, After)) =>
        hanoi(M, From, By, To, Before) & hanoi(M, By, To, From, After) ),
    append(Before, [From - To | After], Moves).

append([], Ys, Ys).
append([X | Xs], Ys, [X | Zs]) :- append(Xs, Ys, Zs).

length([], 0).
length([_ | Xs], N) :- length(Xs, M), N is M + 1.
