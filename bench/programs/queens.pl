% All solutions of n queens.
queens(N, Queens) :- numbers(1, N, Numbers), place(Numbers, [], Queens).

numbers(N, N, [N]).
numbers(I, N, [I|Is]) :- I < N, J is I + 1, numbers(J, N, Is).

place([], Queens, Queens).
place(Numbers, Placed, Queens) :-
    chosen(Q, Numbers, Rest), safe(Placed, Q, 1), place(Rest, [Q|Placed], Queens).

chosen(X, [X|Xs], Xs).
chosen(X, [Y|Ys], [Y|Zs]) :- chosen(X, Ys, Zs).

safe([], Q, D).
safe([P|Ps], Q, D) :- Q =\= P + D, Q =\= P - D, E is D + 1, safe(Ps, Q, E).

count(N) :- queens(N, Queens), fail.
count(N).
