; Case means nothing, types have parents, and a parameter may be of either of two types.
(DEFINE (DOMAIN Move)
 (:requirements :strips :typing)
 (:types truck plane - vehicle place)
 (:constants Hub - place)
 (:predicates (at ?v - vehicle ?p - place) (road ?a ?b - place))
 (:action GO :parameters (?v - (either truck plane) ?a ?b - place)
  :precondition (and (at ?v ?a) (road ?a ?b))
  :effect (and (not (at ?v ?a)) (at ?v ?b))))
