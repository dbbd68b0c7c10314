"""The tool `explain`: lists all faults of a scenario and its latency file."""
