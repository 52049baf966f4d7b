(atoms 1)
(rule 1 () ())
