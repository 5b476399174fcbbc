; Two actions in a chain, planned by scanning lists, with all that can be told of the search behind the line of its ending.
; Look at the second expansion: s1 leads to a state that was met before, a repeat, and s2 to the goal.
(define (domain chain) (:predicates (a) (b) (c))
 (:action s1 :precondition (a) :effect (b))
 (:action s2 :precondition (b) :effect (and (not (a)) (c))))
