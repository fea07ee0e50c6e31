% A small planner: the farmer, the wolf, the goat and the cabbage cross a river.
% A state is what stands on which bank: s(Farmer, Wolf, Goat, Cabbage).
plan(State, State, _, []).
plan(State, Goal, Seen, [Move | Moves]) :-
    move(State, Move, Next),
    safe(Next),
    absent(Next, Seen),
    plan(Next, Goal, [Next | Seen], Moves).

move(s(A, W, G, C), alone, s(B, W, G, C)) :- across(A, B).
move(s(A, A, G, C), wolf, s(B, B, G, C)) :- across(A, B).
move(s(A, W, A, C), goat, s(B, W, B, C)) :- across(A, B).
move(s(A, W, G, A), cabbage, s(B, W, G, B)) :- across(A, B).

across(west, east).
across(east, west).

% The farmer is with the goat, or nothing that eats or is eaten is.
safe(s(A, _, A, _)).
safe(s(A, A, G, A)) :- across(A, G).

absent(_, []).
absent(State, [Other | States]) :- State \== Other, absent(State, States).

solution(Moves) :-
    Start = s(west, west, west, west),
    plan(Start, s(east, east, east, east), [Start], Moves).
