(atoms 127)
(rule 1 () ())
