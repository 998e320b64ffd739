"""Scripts before they run: which lines are lines at all, how a bad one is mended, and names for new
objects.
"""
