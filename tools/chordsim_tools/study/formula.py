"""Formulas of [sizes]: whole numbers, `list`, `bits`, + - * and parentheses. Nothing else is read, nor ever called."""

import re
from collections.abc import Mapping

NAMES = ("list", "bits")
"""What a formula may name: the keys of the scenario."""
MOST_CHARACTERS = 120
ALLOWED = f"whole numbers, {', '.join(NAMES)}, + - * and parentheses"
TOKEN = re.compile(r"\s*([0-9]{1,9}(?![0-9A-Za-z_.])|[A-Za-z_][A-Za-z0-9_]*|[-+*()])")


class BadFormula(Exception):
    """Why a text is no formula."""


def tokens_of(text: str) -> list[str]:
    """The numbers, names and signs of a formula, or a BadFormula that names what is none."""
    found, place = [], 0
    if len(text) > MOST_CHARACTERS:
        raise BadFormula(f"it has more than {MOST_CHARACTERS} characters")
    while text[place:].strip():
        match = TOKEN.match(text, place)
        if match is None:
            raise BadFormula(f"{text[place:].split()[0]!r} is not allowed")
        if not match[1][0].isdecimal() and match[1] not in (*NAMES, *"+-*()"):
            raise BadFormula(f"{match[1]!r} is not allowed")
        found.append(match[1])
        place = match.end()
    return found


def value_of(text: str, values: Mapping[str, int]) -> int:
    """The value of a formula, or a BadFormula."""
    tokens = tokens_of(text)
    value, place = added(tokens, 0, values)
    if place < len(tokens):
        raise BadFormula(f"{tokens[place]!r} stands where it may not")
    return value


def added(tokens: list[str], place: int, values: Mapping[str, int]) -> tuple[int, int]:
    """Products that are added and subtracted, from this place on: their value, and the place behind them."""
    value, place = multiplied(tokens, place, values)
    while place < len(tokens) and tokens[place] in "+-":
        sign = 1 if tokens[place] == "+" else -1
        other, place = multiplied(tokens, place + 1, values)
        value += sign * other
    return value, place


def multiplied(tokens: list[str], place: int, values: Mapping[str, int]) -> tuple[int, int]:
    """Factors that are multiplied."""
    value, place = factor(tokens, place, values)
    while place < len(tokens) and tokens[place] == "*":
        other, place = factor(tokens, place + 1, values)
        value *= other
    return value, place


def factor(tokens: list[str], place: int, values: Mapping[str, int]) -> tuple[int, int]:
    """A number, a name, or a formula in parentheses."""
    if place == len(tokens):
        raise BadFormula("it ends too early")
    token = tokens[place]
    if token == "(":
        value, place = added(tokens, place + 1, values)
        if place == len(tokens) or tokens[place] != ")":
            raise BadFormula("a parenthesis is not closed")
        return value, place + 1
    if token in values:
        return values[token], place + 1
    if not token.isdecimal():
        raise BadFormula(f"{token!r} stands where it may not")
    return int(token), place + 1
