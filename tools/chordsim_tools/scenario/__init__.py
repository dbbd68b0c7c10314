"""The scenario and latency files (docs/formats.md): their tables, their faults, and how they are read."""
