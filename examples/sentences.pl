% A grammar of simple sentences, as relations between the words before and the words left, and the trees that it gives.
sentence(s(N, V), Words, Rest) :- noun_phrase(Number, N, Words, More), verb_phrase(Number, V, More, Rest).

noun_phrase(Number, np(D, N), Words, Rest) :- determiner(Number, D, Words, More), noun(Number, N, More, Rest).
noun_phrase(one, np(Name), [Name | Rest], Rest) :- name(Name).

verb_phrase(Number, vp(V), Words, Rest) :- verb(Number, V, Words, Rest).
verb_phrase(Number, vp(V, N), Words, Rest) :- verb(Number, V, Words, More), noun_phrase(_, N, More, Rest).

determiner(one, d(a), [a | Rest], Rest).
determiner(_, d(the), [the | Rest], Rest).
determiner(many, d(two), [two | Rest], Rest).

noun(one, n(cat), [cat | Rest], Rest).
noun(many, n(cats), [cats | Rest], Rest).
noun(one, n(dog), [dog | Rest], Rest).

verb(one, v(sees), [sees | Rest], Rest).
verb(many, v(see), [see | Rest], Rest).

name(mary).

parses(Words, Tree) :- sentence(Tree, Words, []).
