"""Defaults of keys of the top table that the profile and other keys decide (docs/formats.md, section 2).

In the extended profile joins pause and have no end, and predecessors are checked, if no key says otherwise. Keys that
are given, and those that the defaults follow, have values of their types.
"""

from typing import Any

EXTENDED_NUMBER = 4


def is_extended(top: dict[str, Any]) -> bool:
    """Whether this is the top of a scenario of the extended profile."""
    return top.get("profile") == EXTENDED_NUMBER


def join_pause_us(top: dict[str, Any]) -> int:
    """The pause after a failed attempt to join."""
    return int(top.get("join_pause_us", top["timeout_us"] if is_extended(top) else 0))


def joins_forever(top: dict[str, Any]) -> bool:
    """Whether a node whose join has failed eight times goes on joining."""
    return bool(top.get("join_forever", is_extended(top)))


def check_us(top: dict[str, Any]) -> int:
    """The period of checks of the predecessor, or 0 if there are none."""
    return int(top.get("check_us", top["stabilize_us"] if is_extended(top) else 0))
