% A problem with mistakes, over the signature of peano.sig.
cnf(good, axiom, add(zero, X) = X).
% sub is not in the signature: this formula is refused, and the reading goes on.
cnf(no_such_symbol, axiom, add(X, sub(Y, Z)) = X).
% s takes one argument.
cnf(wrong_arity, axiom, add(s(X, Y), zero) = s(X)).
% More than 32 cells on a side.
cnf(too_large, axiom, X = s(s(s(s(s(s(s(s(s(s(s(s(s(s(s(s(s(s(s(s(s(s(s(s(s(s(s(s(s(s(s(s(zero))))))))))))))))))))))))))))))))).
% A comma is missing: this breaks the grammar, and the reading stops.
cnf(broken, axiom, add(X Y) = add(Y, X)).
cnf(never_read, axiom, add(zero, X) = X).
