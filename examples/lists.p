% Lists: append joins two of them, rev turns one around.
cnf(append_nil, axiom, append(nil, Ys) = Ys).
cnf(append_cons, axiom, append(cons(X, Xs), Ys) = cons(X, append(Xs, Ys))).
cnf(rev_nil, axiom, rev(nil) = nil).
/* Here the right side is heavier, so that the Knuth-Bendix order turns the rule around;
   the path order keeps it. */
cnf(rev_cons, axiom, rev(cons(X, Xs)) = append(rev(Xs), cons(X, nil))).

cnf(rev_two, negated_conjecture, rev(cons(a, cons(b, nil))) != cons(b, cons(a, nil))).
