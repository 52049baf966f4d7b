(atoms 3)
(rule 1 () (2))
(rule 2 () (3))
(rule 3 () (1))
