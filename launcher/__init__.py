"""The launcher of the program: proves and builds it where it has to be, and runs it. `./editor` at
the top starts it.

Advice for who changes it. `main` reads the words and says what is wrong; `programs` finds a program
that may be run; `build` proves and builds one. What these hang on stands in small modules that do
one thing and know nothing of the others: `crates` (the repository's list), `schedule` (which proof
is next), `calls` (rattle's words, and the verdicts that are taken), `keys` (what a result is kept
under), `store` (the user's folder), `guard` (no proof outlives the launcher), `machine` (memory,
disk, processors), `toolkit` (where rattle is, and whether it is the one that this was made for).

Whoever can write an rlib can prove anything by it. So a library that was kept is believed only in a
folder that is the user's own, with a record of the text, the toolkit and the bytes that it was made
from and of.
"""
