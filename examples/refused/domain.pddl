; A disjunction is not in the fragment: it is refused by name, at its place in the file.
(define (domain lamp) (:predicates (on) (off))
 (:action switch :precondition (or (on) (off)) :effect (on)))
