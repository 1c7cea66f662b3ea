"""How blocks ended: the lines of `run` and `audit` in sentences and in pictures."""
