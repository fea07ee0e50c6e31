% Expected: by hand. A program with a cut is refused as a whole, by the line of its clause.
max(X, Y, X) :-
    X >= Y, !.
max(_, Y, Y).
