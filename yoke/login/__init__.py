"""Logging in to a server: profiles, tokens that are kept, and OAuth 2."""
