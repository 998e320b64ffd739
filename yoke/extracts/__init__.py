"""Extracts for `yoke start`: fetched from a server, from Overpass, or cut out of a file."""
