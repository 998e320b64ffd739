"""`python3 -m tools.site --to FOLDER`: the pages as a static site with search, made by mkdocs."""
