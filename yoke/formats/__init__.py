"""Other formats: what reads them and what writes them, as functions from text to text that touch no
file and no program.
"""
