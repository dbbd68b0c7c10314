"""The tool `latency`: writes latency files."""
