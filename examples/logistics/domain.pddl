; Parcels between cities: trucks drive within a city, an airplane flies between the airports of two.
; Look at the types: load and unload are written once for trucks and airplanes, and a package is what may be in either. The hub is an
; airport that every problem has: it is where airplanes fly to and from.
(define (domain logistics)
 (:requirements :strips :typing :equality)
 (:types city place locatable - object
  depot airport - place
  package vehicle - locatable
  truck airplane - vehicle)
 (:constants hub - airport)
 (:predicates (at ?x - locatable ?p - place) (in ?k - package ?v - vehicle) (within ?p - place ?c - city))
 (:action load :parameters (?k - package ?v - vehicle ?p - place)
  :precondition (and (at ?k ?p) (at ?v ?p))
  :effect (and (not (at ?k ?p)) (in ?k ?v)))
 (:action unload :parameters (?k - package ?v - vehicle ?p - place)
  :precondition (and (in ?k ?v) (at ?v ?p))
  :effect (and (not (in ?k ?v)) (at ?k ?p)))
 (:action drive :parameters (?t - truck ?from ?to - place ?c - city)
  :precondition (and (at ?t ?from) (within ?from ?c) (within ?to ?c) (not (= ?from ?to)))
  :effect (and (not (at ?t ?from)) (at ?t ?to)))
 (:action fly-out :parameters (?a - airplane ?to - airport)
  :precondition (and (at ?a hub) (not (= ?to hub)))
  :effect (and (not (at ?a hub)) (at ?a ?to)))
 (:action fly-home :parameters (?a - airplane ?from - airport)
  :precondition (and (at ?a ?from) (not (= ?from hub)))
  :effect (and (not (at ?a ?from)) (at ?a hub))))
