(atoms 0)
