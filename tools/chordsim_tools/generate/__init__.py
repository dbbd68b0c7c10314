"""The tool `generate`: writes scenarios."""
