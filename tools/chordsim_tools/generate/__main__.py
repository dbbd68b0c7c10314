"""`python3 -m chordsim_tools.generate`, which is `tools/generate`."""

import sys

from chordsim_tools.generate.command import main

sys.exit(main(sys.argv[1:]))
