"""`python3 -m chordsim_tools.study`, which is `tools/study`."""

import sys

from chordsim_tools.study.command import main

sys.exit(main(sys.argv[1:]))
