"""A script over a file that is too large for one session: tile by tile, on many processors or
machines.

`script` takes a script apart, `grid` says which tile owns an object, `extracts` cuts files by
osmium, `edit` runs one session, `worker` does a tile, `merge` puts tiles together, `cluster` hands
tiles to Dask, and `engine` does the whole.
"""
