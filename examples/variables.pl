% Variables in answers, shared ones, and the occurs check.
equal(X, X).
pair(1, _First, _Second).
list([X, Y | Rest], X, Y, Rest).
