% Expected: by hand, from the rules of docs/LANGUAGE.md. A refused query has its line among the blocks of the others.
p(1).
p(2).
