% Lists, for andprolog: pure clauses, searched from first to last. Put it before a program of your own:
%   andprolog run <(cat lib/lists.pl mine.pl)
% then line 1 of mine.pl is line N + 1 in a refusal, N being the lines of this file.

% append(Front, Back, List): List is Front and then Back.
append([], Back, Back).
append([X | Front], Back, [X | List]) :- append(Front, Back, List).

% member(X, List): X stands in List; an answer for each place.
member(X, [X | _]).
member(X, [_ | List]) :- member(X, List).

% select(X, List, Rest): List is Rest with X put in somewhere.
select(X, [X | Rest], Rest).
select(X, [Y | List], [Y | Rest]) :- select(X, List, Rest).

% delete(List, X, Rest): Rest has the elements of List that don't unify with X, which each must decide by itself.
delete([], _, []).
delete([Y | List], X, Rest) :- Y = X, delete(List, X, Rest).
delete([Y | List], X, [Y | Rest]) :- Y \= X, delete(List, X, Rest).

% reverse(List, Reversed), for a list that is whole.
reverse(List, Reversed) :- reverse(List, [], Reversed).
reverse([], Reversed, Reversed).
reverse([X | List], Seen, Reversed) :- reverse(List, [X | Seen], Reversed).

% length(List, Length), for a list that is whole.
length(List, Length) :- length(List, 0, Length).
length([], Length, Length).
length([_ | List], Seen, Length) :- Next is Seen + 1, length(List, Next, Length).

% nth(Place, List, X): X stands at a place of List, from 1; Place may be unbound.
nth(Place, List, X) :- nth(List, 1, Place, X).
nth([X | _], Place, Place, X).
nth([_ | List], Seen, Place, X) :- Next is Seen + 1, nth(List, Next, Place, X).

% last(List, X): X is the last element.
last([X], X).
last([_, Y | List], X) :- last([Y | List], X).

% sum_list(List, Sum), of integers.
sum_list(List, Sum) :- sum_list(List, 0, Sum).
sum_list([], Sum, Sum).
sum_list([X | List], Seen, Sum) :- Next is Seen + X, sum_list(List, Next, Sum).

% between(Low, High, X): X is an integer from Low to High, in order.
between(Low, High, Low) :- Low =< High.
between(Low, High, X) :- Low < High, Next is Low + 1, between(Next, High, X).

% permutation(List, Permuted), for a list that is whole.
permutation([], []).
permutation(List, [X | Permuted]) :- select(X, List, Rest), permutation(Rest, Permuted).
