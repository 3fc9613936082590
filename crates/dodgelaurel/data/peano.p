% Addition and multiplication of natural numbers, written with zero and successor.
cnf(add_zero, axiom, add(zero, X) = X).
cnf(add_successor, axiom, add(s(X), Y) = s(add(X, Y))).
cnf(mul_zero, axiom, mul(zero, X) = zero).
cnf(mul_successor, axiom, mul(s(X), Y) = add(Y, mul(X, Y))).

/* Commutativity cannot be turned into a rewrite rule:
   each side is an instance of the other. */
cnf(add_commutes, hypothesis, add(X, Y) = add(Y, X)).

% Two and two are four.
cnf(two_and_two, negated_conjecture,
    add(s(s(zero)), s(s(zero))) != s(s(s(s(zero))))).
% Two times two are four.
cnf(two_times_two, negated_conjecture,
    mul(s(s(zero)), s(s(zero))) != s(s(s(s(zero))))).
cnf(good, axiom, add(zero, X) = X).
% sub is not in the signature: this formula is refused, and the reading goes on.
cnf(no_such_symbol, axiom, add(X, sub(Y, Z)) = X).
% s takes one argument.
cnf(wrong_arity, axiom, add(s(X, Y), zero) = s(X)).
% More than 32 cells on a side.
cnf(too_large, axiom, X = s(s(s(s(s(s(s(s(s(s(s(s(s(s(s(s(s(s(s(s(s(s(s(s(s(s(s(s(s(s(s(s(zero))))))))))))))))))))))))))))))))).
% A comma is missing: this breaks the grammar, and the reading stops.
cnf(broken, axiom, add(X Y) = add(Y, X)).
cnf(never_read, axiom, add(zero, X) = X).
