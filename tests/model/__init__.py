"""The chain of TS 38.212 once more, of plain lists and by the clauses alone. What the program, the library and the tools answer
is compared with it, so it takes nothing from them. `clauses` has its numbers, `encoder` its parts, `coding` what is sent of a
block, `chain` what a receiver makes of that, and `pcg` the generator of drawn erasures."""
