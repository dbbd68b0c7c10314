"""The help of tools/generate."""

HELP = """\
Writes a scenario for chordsim. Without arguments it is a ring of 64 nodes, two minutes, each looking up a random key
about once a second, without churn. What is written is accepted by `chordsim check`, and the same arguments make the
same bytes.

A TIME is written 250us, 20ms, 1.5s, 10m, 2h, 1d, or as plain microseconds; a SPAN of times as 20s..60s. The nodes are
named n0, n1 and so on, as those of tools/latency are, and those of a group eu-0, eu-1. Their identifiers are new with
each --seed: the leading bits of the SHA-256 digest of the name, the seed and the least number that is free. With --ids
names they are those of the names alone, the same for all seeds; if a name gives one that an earlier node has, another
is drawn. Above 65536 nodes, and with --classes, nodes that are alike are a class, and have names and identifiers of
their own (see below). What is in round brackets at the end of an option's line is its default."""
EPILOG = """\
Churn in one of two forms, of all nodes but the first --stay:
  by itself    --churn-uniform: the nodes have `churn = true`, and the program draws lives and down times.
  by commands  --lifetime and --down: each node crashes at the end of a drawn life and joins again at the end of a drawn
               down time. exp:MEAN is exponential, pareto:ALPHA:MIN longer than x with the probability (MIN/x)^ALPHA,
               uniform:MIN..MAX is alike for all times of the span. Times are rounded up to whole microseconds. Lives of
               initial nodes begin at 0, unless --stationary starts them in equilibrium: each node is up with the
               probability E[life] / (E[life] + E[down]), and has what is left of a time that is under way. Without it
               all churning nodes are new at 0, and their first crashes come in waves. It needs laws with a mean (of
               pareto, ALPHA above 1). --lookups is in equilibrium always; each node's first gap of --lookup-gap, which
               the program draws, is a whole one.
Groups: --group eu:250 makes 250 nodes eu-0 to eu-249, --group eu:250:lifetime=exp:2h,down=exp:10m gives them churn of
their own (lifetime=none: none). --nodes counts all nodes; those that are in no group come first. Without --nodes all
are in groups.
Classes: a table [[nodes]] for all nodes of a group that are alike: those that stay, those that churn by themselves, and
so on. A scenario has at most 16 of them. Identifiers are those of the names, and so that these are new with each --seed
the names have it in them: n1.0, n1.1 and so on for seed 1, nb1.0 for the second class of no group, eu-1.0 of a group.
With --ids names they are n0, nb0 and eu-0. If two names have the same identifier it is refused, and more --bits help.
Arrivals: --arrivals 0.2/s, or arrivals=0.2/s of a group. New nodes come at the times of a Poisson process, live one
life of their law, and never return. Without a law they stay.
Leaves: --leaves 900000: of a million ends of lives so many are leaves and not crashes, of both forms of churn and of a
churn trace. With --churn-uniform this is `leave_ppm`, and otherwise some commands are `leave`.
Outages: --crash 25%@360s, --crash eu@360s, --crash eu:50%@360s: a share of the nodes that are up by the commands, a
group, or a share of a group crashes at that time. With --back they join again that much later (of a span each node
draws its own time), but for those whose own life has ended by then: these come with their next life. Without --back
they are gone for good.
--churn-trace FILE: lines HOST,UP,DOWN say when each host comes up and is down again, in seconds or with a unit. An
empty DOWN is a session that does not end. A first line host,up,down and lines that begin with # are ignored. The hosts
are the nodes; those that are up at 0 are the initial ones, and what is before the last hyphen of a name is its group.
A join by command goes through a node that is up at its time and has been so for a timeout or from the start, drawn
among these; if there is none, among those that are up; if none is, and with --via first, through the first other
node of the file. With --churn-uniform only the nodes that stay are drawn, since nobody knows when the others are up.
Nodes that are not initial join by a command at a time of the span --arrive, and live from then on.

Lookups in two forms, also together:
  by itself    --lookup-gap: each member looks up a random key, and again after a gap of the span.
  by commands  --lookups: each node looks up at the times of a Poisson process, while it is up by the commands. (A node
               that churns by itself gets its lookups also while it is down: the trace has lines `ignored lookup`.)
               --keys zipf:S:COUNT draws COUNT keys once; the one at place k is looked up in proportion to 1/k^S.
Lives, joins, lookups, arrivals, outages and coordinates are drawn from streams of their own, for each node: other
lookups do not change the lives; more nodes do not change what is drawn for the others (but for the nodes that they join
through); and a longer run begins as the shorter one (if --arrive is given).

--coordinates gives each node a place and a height. The latency of two nodes is then the sum of their heights and the
way between their places; --latency only makes the default of --timeout.
  square:SIDE:MIN..MAX   places that are equally likely in a square of this side, and heights in the span
  square:SIDE:HEIGHT     the same with one height. Classes have `side_us`, and the program draws the places of their nodes
  king                   places and heights that tools/latency --king makes, for this seed
  file:NAME              those of a file that tools/latency --fit or --king has written
  regions:NAME           those that come nearest to the latencies between regions, which are the groups of the nodes.
                         The file is a matrix: `round-trip,eu,us` or `one-way,eu,us`, and a line `eu,1ms,80ms` for each
                         region. Latencies within a region are exact; how far the others are off is printed. Latency
                         rows are exact for all: tools/latency --regions

A small random scenario, which tries out as much as possible in little time: --random SEED, alone. It has 3 to 16 nodes,
2 to 8 ms, mostly much churn and calls that time out; of six seeds the first two have profile 1, the next two profile 2
and the last two profile 4. Most have also a latency file of some pairs, which --links writes; without it the scenario
stands by itself. The same SEED makes the same bytes.

examples:
  tools/generate -o ring.toml                                   a ring without churn
  tools/generate --nodes 128 --bits 64 --churn-uniform 20s..60s 5s..15s --stay 2 --seed 11
  tools/generate --nodes 256 --lifetime pareto:1.5:20s --down exp:10s --duration 5m -o heavy.toml
  tools/generate --nodes 200 --lifetime exp:10m --down exp:1m --stay 0 --stationary --lookups 0.2 --duration 30m
  tools/generate --nodes 400 --profile 2 --lifetime exp:2h --down exp:10m --stationary --crash 25%@6m --back 10m
  tools/generate --group eu:100 --group us:50:lifetime=exp:30m,arrivals=6/m --duration 10m --profile 2
  tools/generate --initial 8 --arrive 5s..5055ms --duration 1m  a storm of joins
  tools/generate --profile 2 --loss 20000 --spread 5ms          two messages of a hundred are lost, the others late
  tools/generate --profile 4 --loss 20000 --retries 2           the same loss, and requests that are sent again
  tools/generate --profile 4 --lifetime exp:10m --join-pause 5s --no-join-forever --check 0
                                                                joins that end, and no checks of predecessors
  tools/generate --profile 4 --lifetime exp:10m --leaves 1000000 every node that goes tells its neighbours
  tools/generate --profile 4 --no-goes-on --lookup-timeouts 8   lookups begin again at their node after each silent one
  tools/generate --profile 4 --nodes 4096 --coordinates king --timeout 1s
  tools/generate --profile 4 --nodes 1048576 --duration 1s      a million nodes, in one table
  tools/generate --profile 4 --nodes 100000 --coordinates square:60ms:5ms --timeout 1s
                                                                many nodes at places of their own, in one table
  tools/generate --lookups 0.5 --keys zipf:0.9:1000 --seed 3
  tools/generate --random 7 --links links.csv -o any.toml
A scenario that is run with a latency file wants a --window of at most the file's least latency and a --timeout above
twice its greatest one; tools/latency says both when it writes the file.

status: 0 the scenario is written; 1 a file is refused; 2 the arguments are wrong, or ask for more than 100,000 commands
or for more than the 16,777,216 bytes that chordsim reads; 3 the file could not be written. 130 interrupted. A file is
whole or not there."""
