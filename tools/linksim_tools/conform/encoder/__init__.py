"""What judges an encoder: its suite, its model with mistakes, and the diagnosis."""
