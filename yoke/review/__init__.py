"""What `yoke review` shows and does: the edits of a session as items, decisions, their script, and
the page.
"""
