"""`python3 -m chordsim_tools.reference`, which is `tools/reference`."""

import sys

from chordsim_tools.reference.command import main

sys.exit(main(sys.argv[1:]))
