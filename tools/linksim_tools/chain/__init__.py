"""The chain from a transport block to its sent bits, and back, as one page to look at."""
