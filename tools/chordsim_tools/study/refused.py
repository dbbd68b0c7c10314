"""Why the program refuses a setting, in words: the setting, what is there and what is allowed."""

from chordsim_tools.cli import Failure
from chordsim_tools.explain.command import explanations
from chordsim_tools.study.plan import Setting, Study, label
from chordsim_tools.study.task import Task


def refusal(study: Study, setting: Setting, task: Task, fault: Failure) -> Failure:
    """What stops the study if the program does not accept a scenario. A fault of another kind stays as it is."""
    if fault.status != 1:
        return Failure(fault.status, f"{task.name}: {fault.text}")
    if "RowsAndCoordinates" in fault.text:
        told = f"the nodes have coordinates and there are latencies: drop `latency`, or {coordinates_of(study)}"
    else:
        told = explained(task) or fault.text
    return Failure(1, f"{study.path}: the setting {label(setting)} is refused: {told}")


def coordinates_of(study: Study) -> str:
    """Where a study has its coordinates."""
    if study.generate is not None:
        return "--coordinates of `generate`"
    return "x_us, y_us, height_us and side_us of the base"


def explained(task: Task) -> str:
    """The first fault of a scenario and what was likely meant, as tools/explain words them; else nothing."""
    _, found = explanations(task.scenario.encode(), task.latency or b"", ("the scenario", "the latency file"))
    first = next(iter(found), None)
    if first is None:
        return ""
    return "; ".join([f"{first.fault}: {first.what}: {first.found}", f"allowed: {first.allowed}", *first.hints])
