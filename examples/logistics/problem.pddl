; Two cities with a truck each; the airplane stands at the hub, which is in the first. One package stays in its city, two change it.
(define (problem parcels) (:domain logistics)
 (:objects north south - city
  mill market - depot  harbour - airport  quay - depot
  van lorry - truck  dove - airplane
  letter box crate - package)
 (:init (within mill north) (within market north) (within hub north) (within harbour south) (within quay south)
  (at van market) (at lorry quay) (at dove hub)
  (at letter mill) (at box market) (at crate quay))
 (:goal (and (at letter quay) (at box mill) (at crate market))))
