% All colourings of a map of nine states with four colours, many times over.
next(red, green).
next(red, blue).
next(red, yellow).
next(green, red).
next(green, blue).
next(green, yellow).
next(blue, red).
next(blue, green).
next(blue, yellow).
next(yellow, red).
next(yellow, green).
next(yellow, blue).

map(A, B, C, D, E, F, G, H, I) :-
    next(A, B), next(A, C), next(B, C), next(B, D), next(C, D), next(C, E),
    next(D, E), next(D, F), next(E, F), next(E, G), next(F, G), next(F, H),
    next(G, H), next(G, I), next(H, I), next(A, I).

colourings(Times) :- within(1, Times, I), map(A, B, C, D, E, F, G, H, J), fail.
colourings(Times).

within(Low, High, Low) :- Low =< High.
within(Low, High, X) :- Low < High, Next is Low + 1, within(Next, High, X).
