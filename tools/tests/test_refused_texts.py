"""Texts of scenarios and of latencies, each with its first fault, by `chordsim check`."""

from tests.support.rings import (
    IN_THE_PLANE, NO_HOP, ONE_HOP, SETTINGS, TOP, TWO, Change, ProgramTest, of_profile, ring_of, text_of_three,
)

GOOD = "ok nodes=3 commands=1"
"""What the ring of three with one lookup has, and each change of it that is accepted."""

KEYS: tuple[Change, ...] = (
    ("", "", GOOD),
    ("[[node]]", "[[nod", "S1 NotToml"),
    ("seed = 1", "seed = 9223372036854775808", "S1 NotToml"),
    ("seed = 1", "seed = 1\nseed = 1", "S1 NotToml"),
    ("profile = 1", "profile = 1\nx = 1", "S2 UnknownKey top"),
    ("profile = 1", "profile = 1\nloss_ppm = 0", "S2 UnknownKey top"),
    ("profile = 1", "profile = 1\nspread_us = 0", "S2 UnknownKey top"),
    ("profile = 1", "profile = 1\nlookups.x = 0", "S2 UnknownKey lookups"),
    ("profile = 1", "x.y = 1\nprofile = 1", "S2 UnknownKey top"),
    ("id = 1", "id = 1\nkey = 1", "S2 UnknownKey node 2"),
    ("key = 1", "key = 1\nid = 1", "S2 UnknownKey command 1"),
    ("key = 1", "", "S3 MissingKey command 1 key"),
    ('do = "lookup"', 'do = "join"', "S3 MissingKey command 1 via"),
    ('name = "n1"', "", "S3 MissingKey node 2 name"),
    ("list = 2", "", "S3 MissingKey top list"),
    ("id = 3", "churn = true", "S3 MissingKey top churn"),
    ("profile = 1", "profile = 1\nlookups = {}", "S3 MissingKey lookups gap_min_us"),
    ("profile = 1", "profile = 1\nchurn = {}", "S3 MissingKey churn life_min_us"),
)
"""A TOML document, and the keys of its tables."""
TYPES: tuple[Change, ...] = (
    ("bits = 3", 'bits = "3"', "S4 WrongType top bits"),
    ("seed = 1", "seed = 1979-05-27", "S4 WrongType top seed"),
    ("seed = 1", "seed = 1.0", "S4 WrongType top seed"),
    ("profile = 1", "profile = 1\nchurn = 3", "S4 WrongType top churn"),
    ('[[command]]\nat_us = 100\ndo = "lookup"\nnode = "n0"\nkey = 1', "[command]", "S4 WrongType top command"),
    ("initial = true", "initial = 1", "S4 WrongType node 1 initial"),
    ("id = 0", "id = true", "S4 WrongType node 1 id"),
    ('do = "lookup"', "do = 1", "S4 WrongType command 1 do"),
)
"""Values of other types."""
TOP_KEYS: tuple[Change, ...] = (
    ("profile = 1", "profile = 0", "S5 OutOfRange top profile"),
    ("profile = 1", "profile = 2", GOOD),
    ("profile = 1", "profile = 4", GOOD),
    ("profile = 1", "profile = 3", "S5 OutOfRange top profile"),
    ("profile = 1", "profile = 5", "S5 OutOfRange top profile"),
    ("bits = 3", "bits = 2", "S5 OutOfRange top bits"),
    ("bits = 3", "bits = 64", GOOD),
    ("bits = 3", "bits = 65", "S5 OutOfRange top bits"),
    ("list = 2", "list = 0", "S5 OutOfRange top list"),
    ("list = 2", "list = 1", GOOD),
    ("list = 2", "list = 3", "S10 TooFewInitial"),
    ("list = 2", "list = 16", "S10 TooFewInitial"),
    ("list = 2", "list = 17", "S5 OutOfRange top list"),
    ("seed = 1", "seed = -1", "S5 OutOfRange top seed"),
    ("seed = 1", "seed = 0", GOOD),
    ("seed = 1", "seed = 9223372036854775807", GOOD),
    ("duration_us = 200", "duration_us = 0", "S5 OutOfRange top duration_us"),
    ("duration_us = 200", "duration_us = 200000000", GOOD),
    ("duration_us = 200", "duration_us = 200000001", "S5 OutOfRange top audit_us"),
    ("duration_us = 200", "duration_us = 1000000000001", "S5 OutOfRange top duration_us"),
)
"""The profile, the width of the circle, the length of a list, the seed and the duration."""
TIMES: tuple[Change, ...] = (
    ("window_us = 10", "window_us = 0", "S5 OutOfRange top window_us"),
    ("window_us = 10", "window_us = 1", GOOD),
    ("window_us = 10", "window_us = 11", "S15 LatencyBelowWindow n0 n1"),
    ("window_us = 10", "window_us = 1000000001", "S5 OutOfRange top window_us"),
    ("latency_us = 10", "latency_us = 0", "S5 OutOfRange top latency_us"),
    ("latency_us = 10", "latency_us = 1000000000", GOOD),
    ("latency_us = 10", "latency_us = 1000000001", "S5 OutOfRange top latency_us"),
    ("timeout_us = 40", "timeout_us = 0", "S5 OutOfRange top timeout_us"),
    ("timeout_us = 40", "timeout_us = 1000000000", GOOD),
    ("timeout_us = 40", "timeout_us = 1000000001", "S5 OutOfRange top timeout_us"),
    ("audit_us = 200", "audit_us = 0", "S5 OutOfRange top audit_us"),
    ("audit_us = 200", "audit_us = 1000000000", GOOD),
    ("audit_us = 200", "audit_us = 1000000001", "S5 OutOfRange top audit_us"),
    ("stabilize_us = 1000", "stabilize_us = 1000000001", "S5 OutOfRange top stabilize_us"),
    ("finger_us = 1000", "finger_us = 1000000001", "S5 OutOfRange top finger_us"),
)
"""The window, the latency and the times of timers."""
OPTIONS: tuple[Change, ...] = (
    ("seed = 1", "seed = 1\njitter_us = -1", "S5 OutOfRange top jitter_us"),
    ("seed = 1", "seed = 1\njitter_us = 1000000000", GOOD),
    ("seed = 1", "seed = 1\njitter_us = 1000000001", "S5 OutOfRange top jitter_us"),
    ("seed = 1", "seed = 1\nmax_events = 0", "S5 OutOfRange top max_events"),
    ("seed = 1", "seed = 1\nmax_events = 1", GOOD),
    ("seed = 1", "seed = 1\nmax_events = 50000001", "S5 OutOfRange top max_events"),
    ("seed = 1", "seed = 1\nlookups.gap_min_us = 1\nlookups.gap_max_us = 1", GOOD),
    ("seed = 1", "seed = 1\nlookups.gap_min_us = 0\nlookups.gap_max_us = 1", "S5 OutOfRange lookups gap_min_us"),
    ("seed = 1", "seed = 1\nlookups.gap_min_us = 6\nlookups.gap_max_us = 5", "S5 OutOfRange lookups gap_max_us"),
    (
        "seed = 1",
        "seed = 1\nlookups.gap_min_us = 6\nlookups.gap_max_us = 1000000001",
        "S5 OutOfRange lookups gap_max_us",
    ),
    (
        "seed = 1",
        "churn = { life_min_us = 5, life_max_us = 4, down_min_us = 1, down_max_us = 1 }\nseed = 1",
        "S5 OutOfRange churn life_max_us",
    ),
    (
        "seed = 1",
        "churn = { life_min_us = 5, life_max_us = 5, down_min_us = 2, down_max_us = 1 }\nseed = 1",
        "S5 OutOfRange churn down_max_us",
    ),
    ("seed = 1", "churn = { life_min_us = 5, life_max_us = 5, down_min_us = 1, down_max_us = 1 }\nseed = 1", GOOD),
)
"""The settings that may be left out."""
TABLES: tuple[Change, ...] = (
    ("id = 0", "id = 8", "S5 OutOfRange node 1 id"),
    ("id = 0", 'id = "8"', "S5 OutOfRange node 1 id"),
    ("id = 0", 'id = ""', "S5 OutOfRange node 1 id"),
    ("id = 0", "id = -1", "S5 OutOfRange node 1 id"),
    ("id = 0", "id = 7", GOOD),
    ("id = 0", 'id = "07"', GOOD),
    ("id = 0", 'id = "0000000000000007"', GOOD),
    ("id = 0", 'id = "00000000000000007"', "S5 OutOfRange node 1 id"),
    ("id = 3", 'id = "00000000000000000"', "S5 OutOfRange node 3 id"),
    ("id = 3", 'id = "F"', "S5 OutOfRange node 3 id"),
    ("at_us = 100", "at_us = 199", GOOD),
    ("at_us = 100", "at_us = 200", "S11 TimeAfterEnd command 1"),
    ("at_us = 100", "at_us = 1000000000000", "S11 TimeAfterEnd command 1"),
    ("at_us = 100", "at_us = 1000000000001", "S5 OutOfRange command 1 at_us"),
    ('do = "lookup"', 'do = "leave"', "S5 OutOfRange command 1 do"),
    ('do = "lookup"', 'do = "crash"', GOOD),
    ("key = 1", "key = 8", "S5 OutOfRange command 1 key"),
    ('do = "lookup"', 'do = "crash"\nvia = "n9"', "S9 UnknownNode command 1"),
)
"""Identifiers and commands."""
RINGS: tuple[Change, ...] = (
    ('name = "n1"', 'name = "audit"', "S6 BadName node 2"),
    ('name = "n1"', 'name = ""', "S6 BadName node 2"),
    ('name = "n1"', 'name = "n 1"', "S6 BadName node 2"),
    ('name = "n1"', 'name = "aaaaaaaaaaaaaaaaaaaaaaaaaaaaaaa."', GOOD),
    ('name = "n1"', 'name = "aaaaaaaaaaaaaaaaaaaaaaaaaaaaaaa_-"', "S6 BadName node 2"),
    ('name = "n1"', 'name = "n0"', "S7 SameName node 1 node 2"),
    ("id = 1", "id = 0", "S8 SameId n0 n1"),
    ("id = 1", 'id = "3"', "S8 SameId n1 n3"),
    ('node = "n0"', 'node = "n9"', "S9 UnknownNode command 1"),
    ("initial = true", "initial = false", "S10 TooFewInitial"),
    ('do = "lookup"', 'do = "join"\nvia = "n0"', "S13 SelfLink command 1"),
    ('do = "lookup"', 'do = "join"\nvia = "n1"', GOOD),
    (
        "latency_us = 10\nlist = 2\nduration_us = 200\nwindow_us = 10",
        "latency_us = 1000000000\nlist = 2\nduration_us = 200\nwindow_us = 1000000000",
        GOOD,
    ),
    (
        'initial = true\n[[node]]\nname = "n1"\nid = 1\ninitial = true\n'
        '[[node]]\nname = "n3"\nid = 3\ninitial = true\n',
        "",
        "S5 OutOfRange top node",
    ),
    (
        '\n[[node]]\nname = "n1"\nid = 1\ninitial = true\n[[node]]\nname = "n3"\nid = 3\ninitial = true',
        '\n[[node]]\nname = "n1"',
        "S10 TooFewInitial",
    ),
    (
        'id = 3\ninitial = true\n[[command]]\nat_us = 100\ndo = "lookup"\nnode = "n0"\nkey = 1\n',
        "id = 3\n",
        "S10 TooFewInitial",
    ),
    ("[[node]]", "[[node]]\nname = 3\n[[node]]", "S4 WrongType node 1 name"),
)
"""Names, and facts of several tables."""
LIMITS: tuple[Change, ...] = (
    (
        "duration_us = 200\nwindow_us = 10\ntimeout_us = 40\naudit_us = 200",
        "duration_us = 1000000000000\nwindow_us = 10\ntimeout_us = 40\naudit_us = 1000000",
        GOOD,
    ),
    (
        "duration_us = 200\nwindow_us = 10\ntimeout_us = 40\naudit_us = 200",
        "duration_us = 1000000000000\nwindow_us = 10\ntimeout_us = 40\naudit_us = 999999",
        "S5 OutOfRange top audit_us",
    ),
    (
        "duration_us = 200\nwindow_us = 10\ntimeout_us = 40\naudit_us = 200",
        "duration_us = 1000000\nwindow_us = 10\ntimeout_us = 40\naudit_us = 1",
        GOOD,
    ),
    (
        "duration_us = 200\nwindow_us = 10\ntimeout_us = 40\naudit_us = 200",
        "duration_us = 1000001\nwindow_us = 10\ntimeout_us = 40\naudit_us = 1",
        "S5 OutOfRange top audit_us",
    ),
    (
        "latency_us = 10\nlist = 2\nduration_us = 200\nwindow_us = 10",
        "latency_us = 1\nlist = 2\nduration_us = 200\nwindow_us = 1",
        GOOD,
    ),
    ("timeout_us = 40", "timeout_us = 1", GOOD),
    ("audit_us = 200", "audit_us = 1", GOOD),
    ("stabilize_us = 1000", "stabilize_us = 0", "S5 OutOfRange top stabilize_us"),
    ("stabilize_us = 1000", "stabilize_us = 1", GOOD),
    ("stabilize_us = 1000", "stabilize_us = 1000000000", GOOD),
    ("finger_us = 1000", "finger_us = 0", "S5 OutOfRange top finger_us"),
    ("finger_us = 1000", "finger_us = 1", GOOD),
    ("finger_us = 1000", "finger_us = 1000000000", GOOD),
    ("seed = 1", "seed = 1\njitter_us = 0", GOOD),
    ("seed = 1", "seed = 1\nmax_events = 50000000", GOOD),
    ("seed = 1", "seed = 1\nlookups.gap_min_us = 1000000000\nlookups.gap_max_us = 1000000000", GOOD),
    (
        "seed = 1",
        "churn = { life_min_us = 1, life_max_us = 1000000000, down_min_us = 1, down_max_us = 1000000000 }\nseed = 1",
        GOOD,
    ),
    (
        "seed = 1",
        "churn = { life_min_us = 0, life_max_us = 5, down_min_us = 1, down_max_us = 1 }\nseed = 1",
        "S5 OutOfRange churn life_min_us",
    ),
    (
        "seed = 1",
        "churn = { life_min_us = 5, life_max_us = 1000000001, down_min_us = 1, down_max_us = 1 }\nseed = 1",
        "S5 OutOfRange churn life_max_us",
    ),
    (
        "seed = 1",
        "churn = { life_min_us = 5, life_max_us = 5, down_min_us = 0, down_max_us = 1 }\nseed = 1",
        "S5 OutOfRange churn down_min_us",
    ),
    (
        "seed = 1",
        "churn = { life_min_us = 5, life_max_us = 5, down_min_us = 1, down_max_us = 1000000001 }\nseed = 1",
        "S5 OutOfRange churn down_max_us",
    ),
    ("at_us = 100", "at_us = 0", GOOD),
    ("at_us = 100", "at_us = -1", "S5 OutOfRange command 1 at_us"),
)
"""The same for numbers at the ends of their ranges."""
ROWS = (
    ("n0,n3,15", GOOD),
    ('\n\nn0,n3,15\n\n"n1",n3,"20"\r\n', GOOD),
    ("n0,n3,1000000000", GOOD),
    ("n0,n3,0000000010", GOOD),
    ("n0,n3,9", "S15 LatencyBelowWindow n0 n3"),
    ("n3,n1,9", "S15 LatencyBelowWindow n1 n3"),
    ("n0,n0,10\nn0,n9,10", "S9 UnknownNode row 2"),
    ("n0,n0,10", "S13 SelfLink row 1"),
    ("n0,n3,10\nn3,n0,10", "S14 SameLinkTwice row 2"),
    ("n0,n3", "S12 BadLatencyRow row 1"),
    ("n0,n3,", "S12 BadLatencyRow row 1"),
    ("n0,n3,0", "S12 BadLatencyRow row 1"),
    ("n0,n3,+10", "S12 BadLatencyRow row 1"),
    ("n0,n3, 10", "S12 BadLatencyRow row 1"),
    ("n0,n3,1000000001", "S12 BadLatencyRow row 1"),
    ("n0,n3,00000000010", "S12 BadLatencyRow row 1"),
    ("n0,n3,10,", "S12 BadLatencyRow row 1"),
    ("n0,n3,15\nn0,n1", "S12 BadLatencyRow row 2"),
    ("n0,n3,15\nn0,n1,10,10", "S12 BadLatencyRow row 2"),
    ("n0\nn0,n9,x", "S9 UnknownNode row 2"),
    ("n0,n0,x", "S12 BadLatencyRow row 1"),
    ('"n0,n3,15', "S12 BadLatencyRow row 1"),
)
"""Latency texts of the base, and the result."""
SECOND: tuple[Change, ...] = (
    ("", "", GOOD),
    ("seed = 1", "seed = 1\nloss_ppm = 0\nspread_us = 0", GOOD),
    ("seed = 1", "seed = 1\nloss_ppm = 1000000", GOOD),
    ("seed = 1", "seed = 1\nloss_ppm = 1000001", "S5 OutOfRange top loss_ppm"),
    ("seed = 1", "seed = 1\nloss_ppm = -1", "S5 OutOfRange top loss_ppm"),
    ("seed = 1", "seed = 1\nloss_ppm = 0.5", "S4 WrongType top loss_ppm"),
    ("seed = 1", "seed = 1\nspread_us = 1000000000", GOOD),
    ("seed = 1", "seed = 1\nspread_us = 1000000001", "S5 OutOfRange top spread_us"),
    ("seed = 1", "seed = 1\nspread_us = true", "S4 WrongType top spread_us"),
    ("seed = 1", "seed = 1\nloss_ppm = -1\nmax_events = 0", "S5 OutOfRange top max_events"),
    ("seed = 1", "seed = 1\nspread_us = -1\nchurn = 3", "S4 WrongType top churn"),
    ("window_us = 10", "window_us = 11\nspread_us = 5", "S15 LatencyBelowWindow n0 n1"),
    ("bits = 3", "bits = 128", GOOD),
    ("bits = 3", "bits = 129", "S5 OutOfRange top bits"),
    ("id = 3", 'id = "00000000000000000"', "S8 SameId n0 n3"),
    ("key = 1", 'key = "00000000000000000000000000000001"', GOOD),
    ("key = 1", 'key = "000000000000000000000000000000001"', "S5 OutOfRange command 1 key"),
)
"""The ring of three with one lookup in the second profile, one text replaced by another, and the result."""
EXTENDED: tuple[Change, ...] = (
    ("seed = 1", "seed = 1\nloss_ppm = 0\nspread_us = 0\nretries = 0", GOOD),
    ("list = 2", "list = 32", GOOD),
    ("initial = true", "initial = false", GOOD),
    ("list = 2", "list = 33", "S5 OutOfRange top list"),
    ("seed = 1", "seed = 1\nretries = 3", GOOD),
    ("seed = 1", "seed = 1\nretries = 4", "S5 OutOfRange top retries"),
    ("seed = 1", "seed = 1\nretries = -1\nspread_us = -1", "S5 OutOfRange top spread_us"),
    ("seed = 1", "seed = 1\nretries = true", "S4 WrongType top retries"),
    ("seed = 1", "seed = 1\nmax_events = 100000000000", GOOD),
    ("seed = 1", "seed = 1\nmax_events = 100000000001", "S5 OutOfRange top max_events"),
    ("profile = 4", "profile = 2\nretries = 0", "S2 UnknownKey top"),
    ("profile = 4", "profile = 2\ncheck_us = 0", "S2 UnknownKey top"),
    ("seed = 1", "seed = 1\njoin_pause_us = 1000000000\njoin_forever = false\ncheck_us = 1000000000", GOOD),
    ("seed = 1", "seed = 1\njoin_pause_us = 1000000001\ncheck_us = 1000000001", "S5 OutOfRange top join_pause_us"),
    ("seed = 1", "seed = 1\njoin_forever = 1\ncheck_us = 1000000001", "S4 WrongType top join_forever"),
    ("seed = 1", "seed = 1\nlist_routes = false", GOOD),
    ("seed = 1", "seed = 1\nlist_routes = 0", "S4 WrongType top list_routes"),
    ("profile = 4", "profile = 2\nlist_routes = true", "S2 UnknownKey top"),
    ("seed = 1", "seed = 1\nlookup_timeouts = 0", GOOD),
    ("seed = 1", "seed = 1\nlookup_timeouts = 64", GOOD),
    ("seed = 1", "seed = 1\nlookup_timeouts = 65", "S5 OutOfRange top lookup_timeouts"),
    ("seed = 1", "seed = 1\nlookup_timeouts = true\ngoes_on = 1", "S4 WrongType top goes_on"),
    ("profile = 4", "profile = 1\nlookup_timeouts = 8", "S2 UnknownKey top"),
    ("seed = 1", "seed = 1\ndrop_silent = 0", "S4 WrongType top drop_silent"),
    ("seed = 1", "seed = 1\nskip_near = 1\nlookup_timeouts = 65", "S4 WrongType top skip_near"),
    ("seed = 1", "seed = 1\nrandom_start = 1", "S4 WrongType top random_start"),
    ("seed = 1", "seed = 1\nclean_lists = false\njoin_asks = false", GOOD),
    ("seed = 1", "seed = 1\njoin_asks = 1\nclean_lists = 1", "S4 WrongType top clean_lists"),
    ("profile = 4", "profile = 2\njoin_asks = true", "S2 UnknownKey top"),
    ("seed = 1", "seed = 1\nfinger_jitter_us = 1000000001", "S5 OutOfRange top finger_jitter_us"),
    ("seed = 1", "seed = 1\ncheck_jitter_us = -1\nstabilize_jitter_us = -1", "S5 OutOfRange top stabilize_jitter_us"),
    ("profile = 4", "profile = 2\ncheck_jitter_us = 0", "S2 UnknownKey top"),
    ("seed = 1", "seed = 1\nskip_near = 1\nask_owner = 1", "S4 WrongType top ask_owner"),
    ("seed = 1", 'seed = 1\ndetail = "yes"', "S4 WrongType top detail"),
    ("profile = 4", "profile = 1\ndetail = false", "S2 UnknownKey top"),
    ("bits = 3", "bits = 128", GOOD),
    ("key = 1", 'key = "00000000000000000000000000000001"', GOOD),
)
"""The ring of three with one lookup in the extended profile, one text replaced by another, and the result."""
PLACED: tuple[Change, ...] = (
    ("", "", GOOD),
    ("height_us = 7\n", "", "S15 LatencyBelowWindow n3 n0"),
    ("height_us = 5", "height_us = 4", GOOD),
    ("height_us = 5", "height_us = 3", "S15 LatencyBelowWindow n0 n1"),
    ("x_us = 3\ny_us = 4\nheight_us = 6", "height_us = 6", "S3 MissingKey node 2 x_us"),
    ("y_us = 4\n", "", "S3 MissingKey node 2 y_us"),
    ("x_us = 3\ny_us = 4\nheight_us = 6\n", "", "S3 MissingKey node 2 x_us"),
    ("x_us = 3", "x_us = 3.0", "S4 WrongType node 2 x_us"),
    ("x_us = 3", "x_us = 500000000", GOOD),
    ("x_us = 3", "x_us = 500000001", "S5 OutOfRange node 2 x_us"),
    ("height_us = 7", "height_us = 100000001", "S5 OutOfRange node 3 height_us"),
    ("profile = 4", "profile = 2", "S2 UnknownKey node 1"),
)
"""The ring of three in the plane, one text replaced by another, and the result."""


NAMED = """\
profile = 1
bits = 8
list = 1
seed = 1
duration_us = 200
window_us = 10
latency_us = 10
timeout_us = 40
audit_us = 200
stabilize_us = 1000
finger_us = 2000
churn = { life_min_us = 7, life_max_us = 7, down_min_us = 1, down_max_us = 1 }
lookups = { gap_min_us = 5, gap_max_us = 5 }
[[node]]
name = "a"
initial = true
[[node]]
name = "b"
[[node]]
name = "c"
initial = true
churn = true
[[command]]
at_us = 100
do = "join"
node = "b"
via = "c"
[[command]]
at_us = 50
do = "crash"
node = "a"
"""
"""Three nodes without identifiers, which churn and look up at once."""
LEAST = """\
profile = 1
bits = 3
list = 1
seed = 0
duration_us = 1
window_us = 1
latency_us = 1
timeout_us = 1
audit_us = 1
stabilize_us = 1
finger_us = 1
[[node]]
name = "a"
id = 0
initial = true
[[node]]
name = "b"
id = 1
initial = true
[[command]]
at_us = 0
do = "crash"
node = "a"
"""
"""Two nodes, and each number the least that is allowed."""


def text_of_nodes(nodes: int) -> str:
    """A scenario of so many nodes without identifiers."""
    return (
        "profile = 1\nbits = 64\nlist = 16\nseed = 1\nduration_us = 200\nwindow_us = 10\nlatency_us = 10\n"
        "timeout_us = 40\naudit_us = 200\nstabilize_us = 1000\nfinger_us = 1000\n"
        + "".join(f'[[node]]\nname = "n{i}"\ninitial = true\n' for i in range(nodes))
    )


class RefusedTexts(ProgramTest):
    """What `check` returns."""

    def test_first_faults(self) -> None:
        """The ring of three with one lookup, one text replaced by another."""
        base = text_of_three(NO_HOP)
        for changes in (KEYS, TYPES, TOP_KEYS, TIMES, OPTIONS, TABLES, RINGS, LIMITS):
            self.have_results(base, changes)

    def test_two_nodes(self) -> None:
        """Two nodes whose latency is the window, and is below it."""
        two = TOP + SETTINGS.replace("list = 2", "list = 1") + TWO + NO_HOP
        self.has_answer(two, "", "ok nodes=2 commands=1")
        self.has_answer(two.replace("window_us = 10", "window_us = 11"), "", "S15 LatencyBelowWindow n0 n4")

    def test_last_node_is_not_initial(self) -> None:
        """The ring of three with lists of two, of which two nodes are initial."""
        first, last, rest = text_of_three(NO_HOP).rpartition("initial = true\n")
        self.assertEqual(last, "initial = true\n")
        self.has_answer(first + rest, "", "S10 TooFewInitial")

    def test_latency_rows(self) -> None:
        """The ring of three with a latency text."""
        for csv, want in ROWS:
            with self.subTest(csv):
                self.has_answer(text_of_three(NO_HOP), csv, want)

    def test_ends_of_texts(self) -> None:
        """Texts cut short, no text, and a circle that is too narrow for three names."""
        for text, want in (
            ("profile = 1\n", "S3 MissingKey top bits"),
            ("profile = 1\nx = 1", "S2 UnknownKey top"),
            ("profile = 1\n[[nod", "S1 NotToml"),
            ("", "S3 MissingKey top profile"),
            (NAMED.replace("bits = 8", "bits = 3", 1), "S8 SameId a c"),
        ):
            with self.subTest(text):
                self.has_answer(text, "", want)

    def test_bytes_of_no_text(self) -> None:
        """A byte that is in no text, in place of each one."""
        base = text_of_three(NO_HOP).encode()
        for place in range(len(base)):
            with self.subTest(place):
                self.has_answer(base[:place] + b"\xff" + base[place + 1:], "", "S1 NotToml")
        self.has_answer(base, b"\xff", "S12 BadLatencyRow row 1")

    def test_many_nodes(self) -> None:
        """The most nodes allowed, and one more, in the first and in the second profile."""
        self.has_answer(text_of_nodes(512), "", "ok nodes=512 commands=0")
        self.has_answer(text_of_nodes(513), "", "S5 OutOfRange top node")
        self.has_answer(ring_of(13, 4097, 3000), "", "S5 OutOfRange top node")

    def test_least_of_each(self) -> None:
        """The least number of each kind, and the least latency in a row."""
        self.has_answer(LEAST, "a,b,1", "ok nodes=2 commands=1")

    def test_many_commands(self) -> None:
        """The most commands allowed, and one more."""
        crash = '[[command]]\nat_us = 1\ndo = "crash"\nnode = "n0"\n'
        most = text_of_three(NO_HOP) + 99_999 * crash
        self.has_answer(most, "", "ok nodes=3 commands=100000")
        self.has_answer(most + crash, "", "S5 OutOfRange top command")

    def test_second_profile(self) -> None:
        """Its keys and ranges."""
        self.have_results(of_profile("profile = 2", text_of_three(NO_HOP)), SECOND)

    def test_extended_profile(self) -> None:
        """Its keys and ranges."""
        self.have_results(text_of_three(NO_HOP).replace("profile = 1", "profile = 4"), EXTENDED)

    def test_coordinates(self) -> None:
        """Its keys of nodes. If a row is there too, a fault of the heights comes first."""
        base = (TOP + SETTINGS + IN_THE_PLANE + ONE_HOP).replace("profile = 1", "profile = 4")
        self.have_results(base, PLACED)
        self.has_answer(base, "n0,n3,20", "S16 RowsAndCoordinates")
        self.has_answer(base.replace("height_us = 5", "", 1), "n0,n3,20", "S15 LatencyBelowWindow n0 n1")
