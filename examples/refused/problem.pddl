(define (problem dark) (:domain lamp) (:init (off)) (:goal (on)))
