"""The notes below the tables of a page, which say what their columns are. Each stands with the table of its column."""

from chordsim_tools.study.estimates import MOST_ERROR, OLDER_ERROR
from chordsim_tools.study.interval import LEAST_SEEDS
from chordsim_tools.study.names import NAMES, RATE, RATES, TIMES, difference_header, is_wild

ERROR, OLDER = (f"{100 * error:g} %" for error in (MOST_ERROR, OLDER_ERROR))
FIRST = (
    "**±** is half of a 95 % interval, for each cell by itself: Student's t over the seeds. **(low..high)** is one "
    "that holds whatever the worlds are like (by betting, Waudby-Smith and Ramdas 2024). Served and members have it, "
    f"and shares that fewer than {LEAST_SEEDS} seeds have strictly between 0 and 100 %: of ten worlds that were run, "
    f"none shows that all others are like them. With fewer than {LEAST_SEEDS} seeds there is no interval.",
    "**(m of n)**: the mean is of m of the n seeds. A seed is left out if its ring was lost, or if it has no such "
    "number. `-`: all seeds are left out.",
    "**rings kept**: seeds whose ring was not lost. It is lost if audits find none from some time to the end, which is "
    "a tenth of the run at least, and at most half of the lookups that end then are right. In brackets: the exact "
    "interval of their share (Clopper and Pearson).",
)
AGAIN = "±, `(m of n)` and `-` are as above."
NOTES = {
    "rings_lost":
        "**rings lost an hour**: for each hour that a ring lives. In brackets: the exact interval (Garwood). `below`: "
        "no ring was lost, and this is the upper bound.",
    "served":
        "**served**: right answers, of the lookups wanted. No seed is left out: rings that were lost count with what "
        "they served. Wanted are the lookups begun or refused, "
        "and those that were planned for a node that is up but no member. Such a node also wants one for each mean gap "
        "of `[lookups]`. A node is up from the start or a join until its crash or leave, even if its join has failed.",
    "right_of_begun":
        "**right of begun**: lookups whose answer names the right owner at the time of the answer (the strict view), "
        "of those that ended while their asker was up.",
    "defensible":
        "**defensible**: lookups whose answer named the right owner at some instant while they ran, of the same ones "
        "as right of begun.",
    "given_up": "**given up**: lookups that ended without an answer, of the same ones as right of begun.",
    "cut_off":
        "**cut off**: lookups whose asker crashed or left before they ended, of all lookups begun. They are in none of "
        "right of begun, defensible and given up, but count as wanted.",
    "mean_ms":
        "**mean time**: the mean time of the lookups that ended while their asker was up. One that was given up counts "
        "with the time until it was given up.",
    "hops": "**hops a lookup**: the mean, of the same lookups as mean time.",
    "timeouts": "**timeouts a lookup**: the mean, of the same lookups as mean time.",
    "members": "**members**: the time that nodes are members, of the time that they are up.",
    "messages":
        "**messages**: all messages sent. In profile 4 they are counted. In profiles 1 and 2 they are estimated, since "
        "a trace has no line for a message that arrives: every call makes a request, a timeout and mostly a reply, so "
        "the events that are neither timers nor commands say how many calls there were. The estimate is off by "
        f"{ERROR} at most, as far as it was tried against the reference simulator, if the ring is kept for 40 timeouts "
        f"and 30 periods ({OLDER} in tables of older tools, which have estimates in profile 4 too). ± says nothing of "
        "this error. Goals and comparisons allow for it.",
    "upkeep":
        "**upkeep**: the messages that are not of lookups. In profile 4 the requests of lookups are counted, those to "
        "owners and those that were sent again with them, and for each call without a timeout one reply. So upkeep "
        "has replies that were lost or late. In profiles 1 and 2 a lookup has two messages a hop and one a timeout, "
        "and upkeep is off by as many as messages are. Refreshes of fingers are upkeep.",
    "events": "**events**: all events of the run. They are counted.",
    "bytes":
        "**bytes**: the messages of each kind times their size in `[sizes]`. If messages are estimated, each kind has "
        "a bound of its own, so bytes may be off by more than messages. Goals and comparisons allow for that.",
}
"""The notes of the numbers, but for the times. Their order is that of the columns."""
UNIT = f"**{RATE}**: for each member and second."
PARTS = {"p50_ms": "50 %", "p90_ms": "90 %", "p99_ms": "99 %", "p999_ms": "99.9 %"}
KEPT = "over the seeds in which both kept their rings."
ALL = "over all seeds."
"""What the differences of served are over; those of all other numbers are over the rings kept."""


def times_note(numbers: list[str], above: list[str]) -> str:
    """The note of the percentiles in a table; in short if the other one has its note in a table above."""
    names = ", ".join(NAMES[number] for number in numbers)
    parts = " and ".join(PARTS[number] for number in numbers)
    text = f"**{names}**: {parts} of all lookups take at most so long"
    if above:
        return f"{text}, computed as {NAMES[above[0]]}."
    return (
        f"{text}, by the curve of Kaplan and Meier in each run. A lookup that was given up never ends. One that was "
        "cut off is censored. `never`: fewer lookups ever end, at least in one seed. Such a world may also be missing "
        "among the seeds: if none of n has it, up to 1 - 0.05 ^ (1 / n) of worlds may have it, 26 % with ten (95 %). A "
        "run with fewer than 1,000 judged lookups has no p99, one with fewer than 10,000 no p99.9, and one with fewer "
        "than 100 no p90."
    )


def notes_of(numbers: list[str], above: list[str]) -> list[str]:
    """The notes of these columns of a table; other ones are in a table above."""
    times, times_above = ([one for one in TIMES if one in table] for table in (numbers, above))
    told = []
    for number in NAMES:
        if number in times[:1]:
            told.append(times_note(times, times_above))
        elif number in numbers and number in NOTES:
            told.append(NOTES[number])
    if set(RATES) & set(numbers) and not set(RATES) & set(above):
        told.append(UNIT)
    return told


def difference_note(number: str, sizes: list[int], worlds: list[str]) -> str:
    """What the column of differences says of worlds with so many settings, which these keys tell apart."""
    pairs = sum(settings * (settings - 1) // 2 for settings in sizes)
    same = f" with the same {', '.join(worlds)}" if worlds else ""
    tests = "McNemar's exact test of the rings lost does not tell the two apart"
    if is_wild(number):
        tests = "neither McNemar's exact test of the rings lost nor the sign test of the seeds tells the two apart"
    return (
        f"**{difference_header(number)}**: this setting less the best one{same}, seed by seed, "
        f"{ALL if number == 'served' else KEPT} The intervals hold for all {pairs} pairs of settings{same} together "
        "(Bonferroni). The best one is that of the answer above, or else the nearest to the goal. Without a goal it is "
        "the one that kept most rings, and of these served most. `not told apart`: the interval reaches 0, and "
        f"{tests}. `no interval`: too few seeds say anything of it, which is no sign that the two are alike. `all "
        "rings lost`: the setting has no ring to compare, and is never the best one."
    )
