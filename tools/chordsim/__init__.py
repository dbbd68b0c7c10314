"""chordsim in Python: scenarios as values, runs, and studies (docs/python.md)."""

from chordsim.errors import ChordsimError, Failed, Refused
from chordsim.running import AuditRow, Report, Result, run
from chordsim.scenario import Scenario
from chordsim.study import Study, StudyResult
from chordsim.table import Table
from chordsim_tools import __version__
from chordsim_tools.trace.lookups import LookupRow

__all__ = [
    "AuditRow", "ChordsimError", "Failed", "LookupRow", "Refused", "Report", "Result", "Scenario", "Study",
    "StudyResult", "Table", "__version__", "run",
]
