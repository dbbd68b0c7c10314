"""The tool `trace`: what happened in one run, from its trace, as text, as JSON or as a page for a browser."""
