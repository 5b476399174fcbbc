(define (problem none)
  (:domain dead-end)
  (:init (s))
  (:goal (z)))
