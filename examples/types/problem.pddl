; t1 is declared twice: it keeps its first place among the objects, and is a truck and a plane.
(define (problem p) (:domain move)
 (:objects T1 - truck A - place T1 - plane)
 (:init (at t1 a) (ROAD a hub))
 (:goal (at t1 hub)))
