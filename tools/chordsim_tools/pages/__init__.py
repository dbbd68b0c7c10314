"""Writes the man pages of the tools and the completions of their arguments, from their parsers."""
