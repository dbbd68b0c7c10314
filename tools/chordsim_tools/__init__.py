"""What the tools beside chordsim have in common, and the tools themselves."""

__version__ = "0.2.0"
