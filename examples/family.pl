% A rule base: who is whose parent, and what follows.
parent(tom, bob).
parent(tom, liz).
parent(pam, bob).
parent(bob, ann).
parent(bob, pat).
parent(pat, jim).
parent(liz, sue).

female(pam).
female(liz).
female(pat).
female(ann).
female(sue).
male(tom).
male(bob).
male(jim).

mother(X, Y) :- parent(X, Y), female(X).
father(X, Y) :- parent(X, Y), male(X).
grandparent(X, Z) :- parent(X, Y), parent(Y, Z).
sibling(X, Y) :- parent(P, X), parent(P, Y), X \== Y.
aunt(X, Y) :- parent(P, Y), sibling(X, P), female(X).
cousin(X, Y) :- parent(P, X), sibling(P, Q), parent(Q, Y).
ancestor(X, Y) :- parent(X, Y).
ancestor(X, Z) :- parent(X, Y), ancestor(Y, Z).
