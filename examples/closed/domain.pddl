; Whoever wants z needs s and t at once, but t costs s.
(define (domain dead-end)
  (:predicates (s) (t) (z))
  (:action bad :precondition (s) :effect (and (t) (not (s))))
  (:action cut :precondition (and (s) (t)) :effect (z)))
