"""`python3 -m chordsim_tools.explain`, which is `tools/explain`."""

import sys

from chordsim_tools.explain.command import main

sys.exit(main(sys.argv[1:]))
