"""The kinds of messages, by the words that lines of a trace have for them."""

from collections import Counter

MESSAGES = (
    "step", "get-state", "get-list", "ping", "notify", "leave", "step-reply", "state-reply", "list-reply", "pong",
)
REQUESTS = MESSAGES[:4]
"""The kinds that ask for a reply."""
REPLIES = dict(zip(REQUESTS, MESSAGES[-4:], strict=True))
"""The kind of reply to each of these."""


def messages_made(kind: str, lines: Counter[str]) -> int:
    """How many messages of a kind a run with detail made, the lost ones with them, by its lines of each kind.

    A request that is lost has a line `ask` too; another message has a line `send` or a line `lose`."""
    if kind in REQUESTS:
        return lines[f"ask {kind}"]
    return lines[f"send {kind}"] + lines[f"lose {kind}"]
