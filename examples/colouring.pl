% Colouring a map, neighbours never alike: Australia's states with three colours.
colour(red).
colour(green).
colour(blue).

different(X, Y) :- colour(X), colour(Y), X \== Y.

australia(WA, NT, SA, Q, NSW, V, T) :-
    different(WA, NT),
    different(WA, SA),
    different(NT, SA),
    different(NT, Q),
    different(SA, Q),
    different(SA, NSW),
    different(SA, V),
    different(Q, NSW),
    different(NSW, V),
    colour(T).

% Four regions that all touch each other need a fourth colour.
four(A, B, C, D) :-
    different(A, B), different(A, C), different(A, D),
    different(B, C), different(B, D), different(C, D).
