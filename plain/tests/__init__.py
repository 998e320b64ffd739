"""Tests of the export to plain Rust: `python3 -m pytest plain/tests`, or unittest."""
