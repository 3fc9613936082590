% Groups: e is the neutral element, f the operation, i the inverse.
cnf(left_neutral, axiom, f(e, X) = X).
cnf(left_inverse, axiom, f(i(X), X) = e).
cnf(associative, axiom, f(f(X, Y), Z) = f(X, f(Y, Z))).

/* The other seven rules of the complete system for groups. */
cnf(cancel_left, hypothesis, f(i(X), f(X, Y)) = Y).
cnf(right_neutral, hypothesis, f(X, e) = X).
cnf(inverse_of_neutral, hypothesis, i(e) = e).
cnf(inverse_of_inverse, hypothesis, i(i(X)) = X).
cnf(right_inverse, hypothesis, f(X, i(X)) = e).
cnf(cancel_right, hypothesis, f(X, f(i(X), Y)) = Y).
% The Knuth-Bendix order turns this one around, since i weighs something.
cnf(inverse_of_product, hypothesis, i(f(X, Y)) = f(i(Y), i(X))).

% The inverse of a conjugate is the conjugate of the inverse.
cnf(conjugate, negated_conjecture, (i(f(X, f(Y, i(X)))) != f(X, f(i(Y), i(X))))).
