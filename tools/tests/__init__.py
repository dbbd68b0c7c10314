"""Tests of the tools and of the program: `tools/run_tests.sh`, or in tools `python3 -m unittest tests.test_rules`."""
