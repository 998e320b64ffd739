"""Takes changesets back, as edits of a working folder that nothing has been sent from.

`history` asks a server what the changesets did, `plan` decides what goes back, `perform` does it by
the program's own merge.
"""
