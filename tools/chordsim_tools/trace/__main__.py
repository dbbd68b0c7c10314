"""`python3 -m chordsim_tools.trace`, which is `tools/trace`."""

import sys

from chordsim_tools.trace.command import main

sys.exit(main(sys.argv[1:]))
