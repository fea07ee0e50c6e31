% Roads between towns, in kilometres, and the ways that they make.
distance(berlin, hamburg, 289).
distance(berlin, leipzig, 190).
distance(hamburg, bremen, 125).
distance(leipzig, dresden, 116).

road(A, B, K) :- distance(A, B, K) ; distance(B, A, K).

way(From, To, Towns, K) :- go(From, To, [From], Towns, K).

go(A, B, _, [A, B], K) :- road(A, B, K).
go(A, C, Seen, [A | Towns], K) :-
    road(A, B, First),
    absent(B, Seen),
    go(B, C, [B | Seen], Towns, Rest),
    K is First + Rest.

absent(_, []).
absent(Town, [Other | Towns]) :- Town \== Other, absent(Town, Towns).
