; Atoms are numbered by their objects as these are declared: (at t home) before (at t work).
(define (problem p) (:domain move) (:objects t - truck home work - place)
 (:init (at t home) (road home work)) (:goal (at t work)))
