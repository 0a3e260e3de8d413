NB. Trains: verbs in a row form a verb. Three are a fork, two a hook,
NB. [: leaves a side out, and a number may stand at the left.
5 (+ - *) 3
(+ *) 3
2 (- @: +) 3
([: - +) 1 2 3
(10 - ]) 1 2 3
- (@: *) 5
+ -
