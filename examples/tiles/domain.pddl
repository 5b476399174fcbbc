; Sliding tiles: a tile goes to the gap beside it.
(define (domain sliding-tiles)
  (:requirements :strips :typing)
  (:types tile place)
  (:predicates (at ?t - tile ?p - place) (gap ?p - place) (beside ?p ?q - place))
  (:action slide
    :parameters (?t - tile ?p ?q - place)
    :precondition (and (at ?t ?p) (gap ?q) (beside ?p ?q))
    :effect (and (not (at ?t ?p)) (not (gap ?q)) (at ?t ?q) (gap ?p))))
