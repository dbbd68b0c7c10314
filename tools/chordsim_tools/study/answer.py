"""What a page says first: which setting reaches the goal, at the least cost, what is not told apart and not decided."""

import math

from chordsim_tools.study.bounds import (
    bound_of, level_of, loss_bounds, loss_slack, misses, missing_level, reaches, slack,
)
from chordsim_tools.study.compare import UNDECIDED, Pair, error_told, guarded_level
from chordsim_tools.study.goal import Goal, Limit
from chordsim_tools.study.goal_words import goal_told, value_told
from chordsim_tools.study.interval import LEAST_SEEDS, outward
from chordsim_tools.study.names import in_words, is_percent
from chordsim_tools.study.numbers import Summary

OPEN = "shown neither to reach the goal nor to miss it"
TELL = "More seeds may decide: the bounds hold at each look."
FRESH_LEVEL = 0.95
"""The level of the bounds of the fresh seeds, which are of one setting."""


def those_that_reach(found: list[Summary], goal: Goal) -> list[Summary]:
    """The settings whose bounds are within all limits."""
    level = level_of(found)
    return [one for one in found if reaches(one, goal, level)]


def undecided(found: list[Summary], goal: Goal) -> tuple[list[Summary], list[Summary]]:
    """The settings that are shown neither to reach the goal nor to miss it: those with bounds, and those without."""
    reaching, level = those_that_reach(found, goal), missing_level(found, goal)
    left = [one for one in found if one not in reaching and not misses(one, goal, level)]
    bounded = [one for one in left if has_bounds(one, goal)]
    return bounded, [one for one in left if one not in bounded]


def least_of(found: list[Summary], goal: Goal) -> Summary:
    """Of these settings the one with the least of what is to be least."""
    return min(found, key=lambda one: one.numbers[goal.least].mean or 0.0)


def chosen(found: list[Summary], goal: Goal | None) -> Summary | None:
    """The setting with which the others are compared: that of the answer, else the nearest one.

    Without a goal it is the one that serves most. There is none if every ring was lost."""
    there = [one for one in found if one.kept and one.numbers["served"].mean is not None]
    if goal is not None and there:
        reaching = those_that_reach(found, goal)
        return least_of(reaching, goal) if reaching else nearest_of(found, goal, level_of(found))

    def serves(one: Summary) -> tuple[float, float]:
        """The rings kept, then the share served."""
        return one.kept / one.seeds, one.numbers["served"].mean or 0.0

    return max(there, key=serves) if there else None


def same_runs(best: Summary, found: list[Summary]) -> list[Summary]:
    """The other settings that have the same runs as the best one in all seeds."""
    return [one for one in found if one is not best and Pair(one, best).equal() == len(best.by_seed) == one.seeds]


def answer(found: list[Summary], goal: Goal, fresh: dict[str, Summary] | None = None) -> str:
    """A few sentences, and a paragraph about what is not decided. Fresh seeds are by the label of their setting."""
    if min(one.seeds for one in found) < LEAST_SEEDS:
        return f"No answer: fewer than {LEAST_SEEDS} seeds."
    reaching = those_that_reach(found, goal)
    how = f"(one-sided bounds, 95 % for all {len(found)} settings together)" if len(found) > 1 else "(one-sided, 95 %)"
    if not reaching:
        return f"No setting reaches {goal_told(goal)} {how}{why_none(found, goal)}"
    best = least_of(reaching, goal)
    shown = (fresh or {}).get(best.label, best)
    text = f"**{best.label}** is the setting with the least {in_words(goal.least)}, {cost_told(shown, goal)}, of those "
    text += f"that reach {goal_told(goal)} {how}: {reached(shown, goal)}."
    text += confirmed_told(best, shown, goal) if len(found) > 1 else ""
    return text + equals_told(best, found) + not_apart(best, reaching, goal, len(found)) + cheaper(best, found, goal)


def confirmed_told(best: Summary, shown: Summary, goal: Goal) -> str:
    """Whether the numbers of the best setting are those of fresh seeds, and whether these reach the goal too."""
    if shown is best:
        return " These numbers are of the seeds by which it was chosen, so they are a little too good."
    text = f" These numbers are of {shown.seeds} fresh seeds, which had no part in the choice."
    if reaches(shown, goal, FRESH_LEVEL):
        return f"{text} They reach the goal by themselves."
    return f"{text} **They do not reach the goal by themselves**: {'; '.join(missed(shown, goal, FRESH_LEVEL))}."


def equals_told(best: Summary, found: list[Summary]) -> str:
    """The settings whose runs are those of the best one: nothing in these worlds tells them apart."""
    equal = same_runs(best, found)
    if not equal:
        return ""
    labels = "; ".join(f"**{one.label}**" for one in equal)
    verb = "has" if len(equal) == 1 else "have"
    return (
        f" {labels} {verb} the same runs in all seeds, so take the one with the most reserve (such as the longest "
        "list): they differ in worlds that were not run."
    )


def why_none(found: list[Summary], goal: Goal) -> str:
    """Which setting comes nearest to the goal, which limits it is not shown to reach, and what is not decided."""
    if not any(one.kept for one in found):
        return ": every ring was lost."
    level = level_of(found)
    nearest = nearest_of(found, goal, level)
    text = f"; the nearest is {nearest.label}: {reached(nearest, goal)}; "
    text += f"missed: {'; '.join(missed(nearest, goal, level))}."
    left, more = undecided(found, goal)
    if left:
        told = "; ".join(f"{one.label} ({', '.join(open_told(one, goal, level))})" for one in left)
        return f"{text}\n\nNot decided ({OPEN}): {told}. {TELL}{without_bounds(len(more))}"
    return text + rest_told(len(more), len(found))


def has_bounds(one: Summary, goal: Goal) -> bool:
    """Whether enough seeds of a setting have the numbers of the goal."""
    return min([one.kept, *(one.numbers[limit.number].count for limit in goal.limits)]) >= LEAST_SEEDS


def without_bounds(count: int) -> str:
    """How many settings have no bounds."""
    verb = "more has" if count == 1 else "more have"
    return f" {count} {verb} too few seeds with these numbers for a bound." if count else ""


def rest_told(more: int, settings: int) -> str:
    """How many of these settings have no bounds, if all others are shown to miss the goal."""
    if not more:
        return " Each setting is shown to miss it."
    noun, verb = "setting" if settings == 1 else "settings", "has" if more == 1 else "have"
    text = f" {more} of {settings} {noun} {verb} too few seeds with these numbers for a bound."
    return text + (" All others are shown to miss it." if more < settings else "")


def not_apart(best: Summary, reaching: list[Summary], goal: Goal, settings: int) -> str:
    """Which of those that reach the goal may be as good."""
    level, same = guarded_level(settings), same_runs(best, reaching)
    others = [one for one in reaching if one is not best and one not in same]
    verdicts = {one.label: Pair(best, one, level).verdict(goal.least) for one in others}
    alike, unknown = ([label for label, verdict in verdicts.items() if verdict == word] for word in UNDECIDED)
    text = f" Not told apart from it: {'; '.join(alike)}." if alike else ""
    return text + (f" Too few seeds tell it from: {'; '.join(unknown)}." if unknown else "")


def cheaper(best: Summary, found: list[Summary], goal: Goal) -> str:
    """The settings with a lower mean of what is to be least that are shown neither to reach the goal nor to miss it."""
    most = cost(best, goal)
    lower, more = ([one for one in settings if cost(one, goal) < most] for settings in undecided(found, goal))
    if not lower:
        return ""
    told = []
    for one in sorted(lower, key=lambda one: cost(one, goal)):
        is_share = is_percent(goal.least) or math.isinf(most)
        less = "" if is_share else f", {100 * (1 - cost(one, goal) / most):.2g} % less"
        told.append(f"{one.label} ({cost_told(one, goal)}{less}; {', '.join(open_told(one, goal, level_of(found)))})")
    head = f"Not decided, with a lower mean of {in_words(goal.least)} ({OPEN})"
    return f"\n\n{head}: {'; '.join(told)}. {TELL}{without_bounds(len(more))}"


def room_of(limit: Limit) -> float:
    """What gaps to a limit are measured by: what a share of at least so much leaves to 1, else the limit."""
    room = 1 - limit.value if is_percent(limit.number) and limit.is_least else abs(limit.value)
    return room or 1.0


def nearest_of(found: list[Summary], goal: Goal, level: float) -> Summary:
    """The setting that lost the fewest rings, and of these the one whose greatest gaps to the limits are the least."""

    def gap(one: Summary) -> tuple[float, list[float]]:
        """The order of settings."""
        shortfalls = [-slack(one, limit, level) / room_of(limit) for limit in goal.limits]
        return 1 - one.kept / one.seeds, sorted(shortfalls, reverse=True)

    return min(found, key=gap)


def cost(one: Summary, goal: Goal) -> float:
    """The mean of what is to be least; infinite if there is none."""
    mean = one.numbers[goal.least].mean
    return math.inf if mean is None else mean


def cost_told(one: Summary, goal: Goal) -> str:
    """What is to be least, of a setting."""
    text = one.numbers[goal.least].told(100 if is_percent(goal.least) else 1) + unit_of(one, goal.least)
    return text + estimate_told(one, goal.least)


def estimate_told(one: Summary, number: str) -> str:
    """How far a number of a setting may be off because messages are estimated."""
    told = error_told(one.error(number)) if one.numbers[number].mean is not None else ""
    return f" ({told})" if told else ""


def unit_of(one: Summary, number: str) -> str:
    """The unit behind a number of a setting. Rates have theirs in their names, and `never` and `-` have none."""
    mean = one.numbers[number].mean
    if mean is None or math.isinf(mean):
        return ""
    return " %" if is_percent(number) else " ms" if number.endswith("_ms") else ""


def number_told(one: Summary, number: str) -> str:
    """A number of a setting with its name."""
    value = one.numbers[number].told(100 if is_percent(number) else 1)
    return f"{in_words(number)} {value}{unit_of(one, number)}{estimate_told(one, number)}"


def reached(one: Summary, goal: Goal) -> str:
    """The numbers of a setting that the goal is about, and its rings."""
    return ", ".join([*(number_told(one, limit.number) for limit in goal.limits), f"rings kept {one.kept_told()}"])


def missed(one: Summary, goal: Goal, level: float) -> list[str]:
    """The limits that a setting is not shown to reach, with what is shown."""
    told = [bound_told(one, limit, level) for limit in goal.limits if slack(one, limit, level) < 0]
    return told + others_told(one, goal, level)


def open_told(one: Summary, goal: Goal, level: float) -> list[str]:
    """The numbers of a setting that are not shown to be within their limits."""
    told = [number_told(one, limit.number) for limit in goal.limits if slack(one, limit, level) < 0]
    return told + others_told(one, goal, level)


def others_told(one: Summary, goal: Goal, level: float) -> list[str]:
    """The rings lost if they are not within their limit, and what is to be least if no seed has it."""
    told = [losses_told(one, goal, level)] if loss_slack(one, goal, level) < 0 else []
    return told + ([f"{in_words(goal.least)}, which no seed has"] if one.numbers[goal.least].mean is None else [])


def bound_told(one: Summary, limit: Limit, level: float) -> str:
    """The bound of a number that is not within its limit."""
    sign = -1 if limit.is_least else 1
    bound, wanted = bound_of(one, limit.number, level, sign), f"limit {value_told(limit.number, limit.value)}"
    if math.isinf(bound):
        return f"{in_words(limit.number)}, which has no bound ({wanted})"
    scale, unit = (100, " %") if is_percent(limit.number) else (1, " ms" if limit.number.endswith("_ms") else "")
    shown = f"{outward(bound * scale, 4, sign):g}{unit}"
    return f"{in_words(limit.number)}, shown to be at {'least' if limit.is_least else 'most'} {shown} ({wanted})"


def losses_told(one: Summary, goal: Goal, level: float) -> str:
    """The bound of the rings lost, or their number if none may be lost."""
    if goal.lost_max is None:
        return f"rings lost, {one.seeds - one.kept} of {one.seeds} (limit: none)"
    bound = outward(loss_bounds(one, level)[1], 2, 1)
    return f"rings lost, shown to be below {bound:g} an hour (limit {goal.lost_max:g})"
