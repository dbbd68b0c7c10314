"""Latencies by the program: of coordinates, of a row in a large ring, and of a row for each pair of nodes.

In the extended profile with detail a lookup of one hop shows the time of its request and that of its reply.
"""

from tests.support.rings import IN_THE_PLANE, ONE_HOP, SETTINGS, THREE, TOP, Example, ProgramTest, of_profile, ring_of

FOUND_BY_PLACE = Example(
    settings=SETTINGS,
    nodes=IN_THE_PLANE,
    commands=ONE_HOP,
    trace=(
        "100 n3 lookup 1\n"
        "128 n3 found 1 n1 hops=1 timeouts=0 us=28\n"
        "200 audit members=3 dead=0 ring=3 ordered=yes principals=3 sufficient=yes\n"
    ),
    report=(
        "events 4\nmembers 0\njoin-failed 0\ncrashes 0\nstranded 0\ndrops 0\nlate 0\ntimeouts 0\n"
        "lookups 1\nfound 1\nlost 0\nbusy 0\nignored 0\nunfinished 0\nhops-sum 1\nhops-greatest 1\n"
        "us-sum 28\nus-least 28\nus-median 28\nus-greatest 28\naudits 1\nringless 0\nunordered 0\n"
        "insufficient 0\nlosses 0\nagain 0\nforgotten 0\n"
        "leaves 0\nrescues 0\ncreates 0\ntimeouts-sum 0\n"
    ),
)
"""From n3 to n0 it is 7 + 5 and the root of 8, which is 2 rounded down: 14 each way."""


def lookup_of(node: str, key: int) -> str:
    """The command by which a node looks a key up at 100."""
    return f'[[command]]\nat_us = 100\ndo = "lookup"\nnode = "{node}"\nkey = {key}\n'


def one_hop(node: str, key: int, asked: str, owner: str, latency: int) -> str:
    """The lines of a lookup of one hop at 100, if both messages take this latency. Before it come two timers."""
    return (
        f"100 {node} lookup {key}\n"
        f"100 {node} ask step {asked} call=3 key={key} since=100\n"
        f"{100 + latency} {asked} send step-reply {node}\n"
        f"{100 + 2 * latency} {node} found {key} {owner} hops=1 timeouts=0 us={2 * latency}\n"
    )


class Latencies(ProgramTest):
    """Lookups whose messages take as long as the two texts say."""

    def test_coordinates(self) -> None:
        """Trace and report by each engine, and each latency of the ring in the plane, in both directions."""
        self.all_leave(FOUND_BY_PLACE.text("profile = 4"), FOUND_BY_PLACE.trace, FOUND_BY_PLACE.report)
        for node, key, asked, owner, latency in (
            ("n0", 2, "n1", "n3", 16),
            ("n1", 4, "n3", "n0", 15),
            ("n3", 1, "n0", "n1", 14),
        ):
            with self.subTest(node=node, asked=asked):
                text = of_profile("profile = 4\ndetail = true", TOP + SETTINGS + IN_THE_PLANE + lookup_of(node, key))
                trace = one_hop(node, key, asked, owner, latency)
                trace += "200 audit members=3 dead=0 ring=3 ordered=yes principals=3 sufficient=yes\n"
                self.assertEqual(self.left(text).trace, trace)

    def test_messages_to_oneself(self) -> None:
        """n0, whose successors have crashed, is its own one. A message to itself takes 1, whatever the two texts say.

        n0 makes two timers; at 100 a timer, a request to n1 (4) and its timeout; at 114 its reply to n3; at 130 a
        request to n3 and its timeout; at 158 a request to n1, which precedes n3, and its timeout; at 188 a notify; at
        200 a timer, a request to n3 (13) and its timeout. So its request to itself, at 230, has the number 15.
        """
        settings = "list = 2\nduration_us = 240\nwindow_us = 10\ntimeout_us = 30\naudit_us = 240\nstabilize_us = 100\n"
        crashes = "".join(
            f'[[command]]\nat_us = {time}\ndo = "crash"\nnode = "{node}"\n' for node, time in (("n1", 50), ("n3", 155))
        )
        for nodes, rows in ((IN_THE_PLANE, ""), (THREE, "n0,n1,16\nn1,n3,15\nn3,n0,14\n")):
            with self.subTest(rows):
                text = TOP + settings + "finger_us = 1000\n" + nodes + crashes
                lines = self.left(of_profile("profile = 4\ndetail = true", text), rows).trace.splitlines()
                self.assertIn("230 n0 ask get-state n0 call=15", lines)
                self.assertIn("231 n0 send state-reply n0", lines)

    def test_row_among_the_most_nodes(self) -> None:
        """A latency text of one row holds in both directions, in a ring of 4,096 nodes."""
        ring, row = ring_of(12, 4096, 3000), "n1,n4095,25\n"
        self.has_answer(ring, row, "ok nodes=4096 commands=1")
        # 25 each way are more than the timeout of this ring.
        text = of_profile("profile = 4\ndetail = true", ring.replace("profile = 2", "profile = 1"))
        text = text.replace("timeout_us = 40", "timeout_us = 60")
        nodes = text.partition("[[command]]")[0]
        for key, asked, owner, latency in ((2, "n1", "n2", 25), (1, "n0", "n1", 10)):
            with self.subTest(asked=asked):
                trace = one_hop("n4095", key, asked, owner, latency)
                trace += "300 audit members=4096 dead=0 ring=4096 ordered=yes principals=4096 sufficient=yes\n"
                self.assertEqual(self.left(nodes + lookup_of("n4095", key), row).trace, trace)

    def test_row_for_each_pair(self) -> None:
        """512 nodes, and a row for each pair of them."""
        rows = "".join(f"n{node},n{other},{10 + node + other}\n" for node in range(512) for other in range(node))
        text = (
            "profile = 1\nbits = 9\nseed = 1\nlatency_us = 9\nlist = 1\nduration_us = 10\nwindow_us = 9\n"
            "timeout_us = 3000\naudit_us = 10\nstabilize_us = 10\nfinger_us = 10\n"
            + "".join(f'[[node]]\nname = "n{node}"\nid = {node}\ninitial = true\n' for node in range(512))
        )
        self.has_answer(text, rows, "ok nodes=512 commands=0")
        for word in ("duration_us", "audit_us", "stabilize_us", "finger_us"):
            text = text.replace(f"{word} = 10\n", f"{word} = 3000\n")
        text = of_profile("profile = 4\ndetail = true", text)
        for node, key, asked, owner, latency in (
            ("n0", 2, "n1", "n2", 11),
            ("n510", 0, "n511", "n0", 1031),
            ("n256", 1, "n0", "n1", 266),
        ):
            with self.subTest(node=node, asked=asked):
                trace = one_hop(node, key, asked, owner, latency)
                trace += "3000 audit members=512 dead=0 ring=512 ordered=yes principals=512 sufficient=yes\n"
                self.assertEqual(self.left(text + lookup_of(node, key), rows).trace, trace)
