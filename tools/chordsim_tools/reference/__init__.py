"""The reference simulator: the rules of docs/rules.md once more, written from the document alone."""
