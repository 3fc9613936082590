% Addition and multiplication of natural numbers, written with zero and successor.
cnf(add_zero, axiom, add(zero, X) = X).
cnf(add_successor, axiom, add(s(X), Y) = s(add(X, Y))).
cnf(mul_zero, axiom, mul(zero, X) = zero).
cnf(mul_successor, axiom, mul(s(X), Y) = add(Y, mul(X, Y))).

/* Commutativity cannot be turned into a rewrite rule:
   each side is an instance of the other. */
cnf(add_commutes, hypothesis, add(X, Y) = add(Y, X)).

% Two and two are four.
cnf(two_and_two, negated_conjecture,
    add(s(s(zero)), s(s(zero))) != s(s(s(s(zero))))).
% Two times two are four.
cnf(two_times_two, negated_conjecture,
    mul(s(s(zero)), s(s(zero))) != s(s(s(s(zero))))).
