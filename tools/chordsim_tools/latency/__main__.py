"""`python3 -m chordsim_tools.latency`, which is `tools/latency`."""

import sys

from chordsim_tools.latency.command import main

sys.exit(main(sys.argv[1:]))
