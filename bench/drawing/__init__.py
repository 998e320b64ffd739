"""The pictures of docs/pictures/, drawn from what the repository has; `bench/pictures` writes them.

`svg` is the paper: lines, boxes and texts, and whether one lies over another. Each other module has
the pictures of a subject.
"""
