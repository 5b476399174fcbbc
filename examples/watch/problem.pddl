(define (problem p) (:domain chain) (:init (a)) (:goal (c)))
