(define (problem p) (:domain trap) (:init (s)) (:goal (z)))
