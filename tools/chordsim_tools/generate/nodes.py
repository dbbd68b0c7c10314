"""The nodes that the options ask for: how many, of which groups, from a churn trace, or arriving during the run."""

from itertools import islice

from chordsim_tools.generate.hosts import Group, Host, arriving, hosts_of
from chordsim_tools.generate.sessions import last_time, read_sessions
from chordsim_tools.options import Given, Options
from chordsim_tools.quantities import time_text
from chordsim_tools.scenario.tables import EXTENDED, MOST_OF_CLASS, PROFILES

OF_TRACE = (
    "nodes", "initial", "arrive", "group", "arrivals", "churn-uniform", "lifetime", "down", "stationary", "stay",
)
"""The options that say who is up when, which a churn trace says by itself."""
MOST_TABLES = EXTENDED.greatest("node")
"""Above so many nodes a scenario has classes."""


def groups_of(options: Options) -> list[Group]:
    """The groups that were named, each once."""
    given: list[Given[Group]] = options.all("group")
    names = [group.value.name for group in given]
    for place, group in enumerate(given):
        if group.value.name in names[:place]:
            options.refuse("group", f"{group.value.name} is named twice")
    return [group.value for group in given]


def common_of(options: Options, nodes: int = 0) -> Group:
    """The group of no name: so many nodes, and the laws of all nodes that their group has none for."""
    lifetime, down, arrivals = (options.get(name, None) for name in ("lifetime", "down", "arrivals"))
    return Group("", nodes, lifetime, down=down, arrivals=arrivals)


def most_nodes(profile: int) -> int:
    """How many nodes a scenario of a profile is made with at most."""
    return MOST_OF_CLASS if profile == 4 else PROFILES[profile].greatest("node")


def room_of(profile: int, bits: int) -> int:
    """How many nodes a scenario may have."""
    return min(most_nodes(profile), 1 << bits)


def default_bits(options: Options, profile: int) -> int:
    """The bits of an identifier: more if there are so many nodes that two names would have the same one."""
    asked = max(options.get("nodes", 0), sum(group.nodes for group in groups_of(options)))
    return 64 if profile == 4 and asked > MOST_TABLES else 32


def first_hosts(options: Options, profile: int, bits: int) -> list[Host]:
    """The nodes that the scenario begins with: the hosts of a churn trace, or those of no group and of each group."""
    room = room_of(profile, bits)
    if options.has("churn-trace"):
        return traced_hosts(options, min(room, MOST_TABLES), least_initial(profile))
    groups = groups_of(options)
    grouped = sum(group.nodes for group in groups)
    if grouped > room:
        options.refuse("group", f"the groups have {grouped} nodes{beyond(profile, bits)}")
    least = max(2, grouped)
    most = most_nodes(profile)
    why = f" (at most {most} in profile {profile}, and 2^{bits}, by --bits){later(profile)}"
    nodes = options.whole("nodes", least if groups else min(64, room), least, room, why)
    return hosts_of(common_of(options, nodes - grouped), groups)


def later(profile: int) -> str:
    """That later profiles take more nodes."""
    more = [f"{most_nodes(number)} in profile {number}" for number in (2, 4) if number > profile]
    return f"; {' and '.join(more)}" if more else ""


def beyond(profile: int, bits: int) -> str:
    """What a profile takes, if nodes are too many."""
    most = most_nodes(profile)
    return f", and a scenario has at most {most} in profile {profile}{later(profile)}, and 2^{bits} (by --bits)"


def least_initial(profile: int) -> int:
    """How many nodes a ring begins with at least."""
    return 1 if profile == 4 else 2


def traced_hosts(options: Options, room: int, least: int) -> list[Host]:
    """The hosts of a churn trace."""
    file: str = options.get("churn-trace", "")
    hosts = read_sessions(file)
    if len(hosts) > room:
        options.refuse("churn-trace", f"{file} has {len(hosts)} hosts, and there is room for {room} nodes, by "
                       "--profile and --bits")
    initial = sum(host.sessions is not None and host.sessions[0][0] == 0 for host in hosts)
    if initial < least:
        told = f"{initial} of the hosts of {file} are up at 0s, and a ring begins with {least} or more"
        options.refuse("churn-trace", told)
    return hosts


def check_trace(options: Options) -> None:
    """Refuses what a churn trace says by itself."""
    for name in OF_TRACE if options.has("churn-trace") else ():
        if options.has(name):
            options.refuse(name, "not with --churn-trace, which says who is up when")


def default_duration(hosts: list[Host]) -> int:
    """Two minutes, or until the last time of a churn trace."""
    return max(1, last_time(hosts)) if hosts[0].sessions is not None else 120_000_000


def newcomers(options: Options, first: int, room: int, duration: int) -> list[Host]:
    """The nodes that arrive during the run."""
    groups = groups_of(options)
    if not options.has("arrivals") and all(group.arrivals is None for group in groups):
        return []
    name = "arrivals" if options.has("arrivals") else "group"
    if options.has("churn-uniform"):
        options.refuse(name, "no arrivals with --churn-uniform: nodes that arrive live by commands (--lifetime)")
    common = common_of(options, first - sum(group.nodes for group in groups))
    found = list(islice(arriving(common, groups, options.get("seed", 1), duration), room - first + 1))
    if first + len(found) > room:
        options.refuse(name, f"more than {room - first} nodes arrive in {time_text(duration)} beside the {first} of "
                       f"the start, and there is room for {room} nodes, by --profile and --bits")
    return found


def has_lives(options: Options) -> bool:
    """Whether lives are drawn here, of all nodes or of a group."""
    return options.has("lifetime") or any(group.lifetime is not None for group in groups_of(options))
