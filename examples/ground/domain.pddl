; A truck on roads. No effect names a road, so a road is no atom of the task and no condition of its actions.
(define (domain move) (:types truck place)
 (:predicates (at ?t - truck ?p - place) (road ?a ?b - place))
 (:action go :parameters (?t - truck ?a ?b - place)
  :precondition (and (at ?t ?a) (road ?a ?b))
  :effect (and (not (at ?t ?a)) (at ?t ?b))))
