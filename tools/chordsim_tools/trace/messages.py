"""How many messages of each kind a run with detail has made, and what the trace says of them."""

from collections import Counter

from chordsim_tools.messages import MESSAGES, messages_made
from chordsim_tools.trace.lines import KINDS
from chordsim_tools.trace.reading import Run
from chordsim_tools.trace.wording import counted, table

Counts = dict[str, dict[str, int]]
COLUMNS = {"made": "made", "lost": "lost", "again": "sent again", "drops": "dropped", "late": "late"}


def message_counts(run: Run) -> Counts | None:
    """The counts of each kind of message, if the run has detail. Lost messages and those sent again are made too."""
    if not run.history.scenario.detail:
        return None
    lines = Counter({KINDS[code]: count for code, count in Counter(run.history.lines.kinds).items()})
    words = {"lost": "lose", "again": "again", "drops": "drop", "late": "late"}
    return {
        kind: {"made": messages_made(kind, lines), **{name: lines[f"{word} {kind}"] for name, word in words.items()}}
        for kind in MESSAGES
    }


def message_table(counts: Counts) -> list[str]:
    """The same for readers, with the sums."""
    sums = {word: sum(row[word] for row in counts.values()) for word in COLUMNS}
    rows = [[kind, *(counted(row[word]) for word in COLUMNS)] for kind, row in (*counts.items(), ("all", sums))]
    return ["messages by kind: lost ones and those that were sent again are among those made", "",
            *table(["kind", *COLUMNS.values()], rows)]
