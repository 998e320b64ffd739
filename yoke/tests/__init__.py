"""Tests of `yoke`: `python3 -m unittest discover yoke`, run at the top of the repository."""
