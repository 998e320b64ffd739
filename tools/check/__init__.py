"""One command that runs every check of the repository: `./check`.

`steps` is the table: a step has a name, a command, what it needs, and when it runs. To add one, add
a line there. A Python file whose name begins with `test_` is found by itself and needs no line.
`needs` says what a step can need and whether it is there; `runner` runs the steps side by side and
counts them.
"""
