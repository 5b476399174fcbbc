; A trap: `bad` and then `cut` would need s and t together, but `bad` takes s away. The way is m, n and o, and then `long`.
; Look at the relaxed plan: without deletes, bad and cut reach the goal. The long way adds none of its atoms, so its states all
; have the same counters, and k-BFWS prunes those with m, n and o, in which no pair of atoms is new. BFWS(f5) keeps them.
(define (domain trap) (:predicates (s) (t) (z) (m) (n) (o))
 (:action bad :precondition (s) :effect (and (t) (not (s))))
 (:action cut :precondition (and (s) (t)) :effect (z))
 (:action am :effect (m))
 (:action an :effect (n))
 (:action ao :effect (o))
 (:action long :precondition (and (m) (n) (o)) :effect (z)))
