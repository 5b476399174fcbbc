; Two actions in a chain: s1 makes b of a, s2 makes c of b and takes a away.
; Look at s2: its delete of a is why s1 does not apply again after it.
(define (domain chain) (:predicates (a) (b) (c))
 (:action s1 :precondition (a) :effect (b))
 (:action s2 :precondition (b) :effect (and (not (a)) (c))))
