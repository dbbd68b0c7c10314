"""The help of tools/study: what a study file has, what each command does, and examples."""

from chordsim_tools.place import IS_INSTALLED

HELP = """\
Runs chordsim with many settings and seeds, and makes tables, plots and a page of it. A study file says what:

  question = "How long must successor lists be, at which repair period?"
  base = "base.toml"       a scenario, relative to the study file; or in its place
  generate = ["--nodes", "200", "--lifetime", "exp:10m"]   arguments of tools/generate: each seed has its own scenario
  latency = "plane.csv"    may be left out; or a list: latency = ["--plane", "100ms"] makes latencies for each seed
  seeds = 10               the seeds 1 to 10; or [1, 2, 3], or "1-10". Left out with [precision]
  window_us = "1s"         may be left out: the step of numbers over time (else audit_us of the base)
  warmup_us = "30s"        may be left out (0): lookups that begin before it are not judged
  cooldown_us = "10s"      may be left out (0): nor are those that begin so long before the end
  [vary]                   every combination is a setting
  list = [2, 4, 8]         keys of the scenario's top table that are integers,
  stabilize_us = ["1s", "250ms"]       times in microseconds, or with units,
  "churn.life_min_us" = [30000000]     or of [churn] and [lookups],
  finger_us = "1s..4s step 1s"         a range
  "--nodes" = [100, 200]               or options of tools/generate
  "--lifetime, --down" = [["exp:2h", "exp:10m"], ["exp:1h", "exp:5m"]]    values that belong together
  [precision]              may be left out: seeds are run until an interval is narrow enough
  served = 0.002           half of it, for each setting; served or another number (docs/studies.md)
  least_seeds = 10
  most_seeds = 200
  [goal]                   may be left out: the page begins with the setting that reaches it
  right_of_begun_min = 0.99
  p99_ms_max = "800ms"
  lost_max = 0.5           rings lost an hour; without it no ring may be lost
  least = "messages"
  [span.outage]            may be left out: a further span that is judged
  from = "360s"
  to = "420s"
  [span.outage.goal]       may be left out: limits of its own
  p99_ms_max = "3s"
  [sizes]                  may be left out: the bytes of a message of each kind
  step = 60
  state-reply = "40 + 20 * list"       or a formula of numbers, list, bits, + - * and parentheses

The setting of an answer is run once more with as many fresh seeds, unless the file has `confirm = false`.

`world = ["loss_ppm"]` names the varied keys that nobody chooses: each world has its own answer. `note = ".."` is a text
for the page. Both may be left out, and stand above the tables.

The program is that of the variable CHORDSIM, else the one that came with the tools."""
EXAMPLES = {
    "run": """\
  tools/study run lists.toml                      all runs, into the folder lists
  nice tools/study run lists.toml --jobs 2 -o out two at a time, into the folder out
  tools/study run lists.toml --part 2/5 -o part2  the second of five shares; docs/clusters.md says more
""",
    "search": """\
  tools/study search periods.toml --jobs 4        rounds of runs, into the folder periods
""",
    "merge": """\
  tools/study merge part1 part2 .. -o out         puts shares together
""",
    "plot": """\
  tools/study plot out                            all plots, also of a study that still runs
  tools/study plot out --x stabilize_us --by list --panels loss_ppm --y right-of-begun
  tools/study plot out --y all-us-p99 losses/lookups
""",
    "report": """\
  tools/study plot out && tools/study report out  plots, and a page with them, also of a study that still runs
""",
    "compare": """\
  tools/study compare out list=4 list=8           two settings by their labels
  tools/study compare out 3 7                     the third and the seventh one of the page's first table
""",
}
"""The examples of each command."""
STATUS = """\
status: 0 all was done; 1 a file is refused, or the program refuses a setting; 2 the arguments are wrong;
3 something failed: a run, the disk, the program or the Python packages for plots are missing; 129, 130 or 143 stopped
by a signal"""
RUN_HELP = """\
Runs `chordsim run --serial` for each setting and seed and writes into FOLDER:

  runs.csv       one line a run: the setting, the seed, the numbers of the report (of the whole run), and of the trace
                 judged-lookups   lookups begun from warmup_us until cooldown_us before the end
                 judged-found, judged-lost    ... of these, answered and given up
                 right, wrong     answers of these: right is the first member at or after the key, clockwise, at the
                                  time of the answer. Members are the initial nodes and those with a line `member`,
                                  until their line `crash`, `leave` or `stranded`.
                 us-p50 ... hops-p99    percentiles 50, 90, 99 of time and hops of the found ones (nearest rank)
                 all-us-p50 ...   percentiles 50, 90, 99, 99.9 of the time of all (Kaplan-Meier; given up is `never`)
                 ended-us, ended-hops, ended-timeouts    sums of the lookups that were answered or given up
                 right-defensible right at some instant while the lookup ran
                 wrong-down, wrong-newcomer    wrong answers that name no member, or miss a nearer one
                 cut-by-crash, cut-by-end      lookups whose asker crashed or left, and those that the end cut off
                 judged-audits    audits after warmup_us
                 mean-members     the mean number of members in these
                 whole-rings      ... with a ring of all members that goes once around
                 torn-rings       ... with a member that has no living successor, no ring, or one that is out of order
                 lost-at-us       the time at which the ring was lost: of the first audit without one, if none has one
                                  from then to the end, that is a tenth of the run at least, and at most half of the
                                  lookups that end in it are right
                 stranded-at-us   the time at which the first member was stranded
                 wanted           lookups begun or refused, and those that nodes missed which were up but no members;
                                  wanted-1, right-1, wanted-2, right-2: in the two halves of the judged span
                 up-us, member-us time that nodes were up, and members, in the judged span
                 owned-p1 ... owned-most    how many judged answers name a member: percentiles 1, 50, 99 (nearest rank),
                                  and the greatest, of the members at the end of the run
                 stretch-p10 ...  percentiles 10, 50, 90 of stretch: the time of a judged answer that names another node
                                  than the asker, divided by a round trip to that node without the random delay
                 pieces-WORD      the column WORD in each of six pieces of the judged span; messages if they are counted
                 cost-...         from warmup_us to the end: time as members, and events; timeouts, those that take a
                                  member for dead, and of these such that remove it from a successor list; requests sent
                                  again; members stranded, joins failed
                 messages, sent-STEP ...       messages in that time: counted in profile 4 (messages-counted is 1), and
                                  estimated in profiles 1 and 2 (docs/studies.md); messages-lookups, those of lookups
                 scenario-list, scenario-bits    `list` and `bits` of the run; bytes: the messages by [sizes]
                 outage.right ... the same numbers of a span with the name outage
  series.csv     one line a run and step of window_us: lookups begun, answers found, right ones, members at its end; and
                 of the lookups that begin in the step: those that ended, right ones among these, and those wanted
  steps.csv      the same for timeouts, lost messages and, in the extended profile, requests sent again
  cdf.csv        how times and hops of the judged lookups are distributed: the share found within each value
  tail.csv       percentiles of the time of all lookups, up to 99.99
  manifest.json  what it was made of, with digests and versions; no times and no names of machines, so that the same
                 study gives the same bytes
  done/          each run's scenario and result. What is there is not run again, unless study, files or program changed:
                 so the same command goes on after an interruption. A result that was edited is run again.
  confirm.csv    the runs of the setting of an answer with fresh seeds, with the columns of runs.csv
  runs.json      which study the folder is of, by digests

The trace is read from the program while it runs and is kept nowhere. A run that is refused or fails stops the study.
How far it is, is shown on standard error: on a terminal by a bar, in a log by a line every 30 seconds. A line
`warning:` is a trap: a timeout below the greatest round trip, a duration below the periods, a max_events below what a
run is likely to need. The latter names the setting and the number before anything is run. The number is estimated as
`tools/explain --help` says, for the setting whose timers come nearest to its limit. The study is run all the same.

--part K/N does every Nth run from the Kth on, and writes no tables: do so on N machines, and put the folders together
by `tools/study merge`. --dask gives the runs to the workers of a Dask cluster, which have to have the same program.
Tables are the same bytes in all these ways."""
SEARCH_HELP = """\
Looks for the setting that reaches [goal] at the least cost, by one or two keys that [search] of the study file gives a
range:

  [search]
  stabilize_us = "250ms..8s"     times with units are divided by equal ratios
  list = "2..16"                 counts by equal steps
  most_rounds = 10               may be left out

The first round tries both ends and the middle of each range, in every combination. Each later round tries the settings
beside the best one so far, one step up and one down by each key. If all of these were tried, the step is halved. The
best one is that of the page: the least cost of those that are shown to reach the goal, else the nearest to it. The
search ends if the best one reaches the goal and nothing beside it costs less by more than 1 %, if the step is small (a
tenth of a time, or 1), or after most_rounds. All settings have the same seeds. The intervals hold for all settings that
may be tried together, so that more rounds need more seeds.

Each round is printed. Its runs are kept as by `tools/study run`, and the tables and the page FOLDER/report.md are
written after it. The same command goes on after an interruption."""
MERGE_HELP = """\
Puts the results of folders into one, and writes the tables there: the same bytes as by one `tools/study run`. The
digests of the study file, of the files that it names and of the program have to agree, and no run may be missing. The
study file is looked for where it was when the runs were done; --study says another place."""
PLOT_HELP = """\
Writes plots as PNG and SVG into FOLDER. Without options:

  times    right answers and percentiles of lookup time, by setting
  right    served, right answers and members over time
  cost     cost against right answers and against time, with the Pareto front of each world
  network  timeouts and lost messages over time
  cdf      how lookup times and hops are distributed
  tail     the share of lookups that take longer than a time, on a logarithmic axis

--y COLUMN.. draws one plot of these columns in place of them all: any column of runs.csv, A/B for the quotient of two,
or one of right-of-begun, right-of-found, found-of-begun, served, whole-of-audits, cost. --x KEY goes along the axis,
--by KEY.. makes lines, --panels KEY.. makes panels, for all plots. What is left open: keys of the world (loss, churn,
lookups, duration) make panels, of the others the key with the most values goes along the axis, and the rest makes
lines.

Means over seeds with 95% intervals, those of the page (cut at 0 and 100%); a seed counts if it has the number.
Percentiles are of all lookups, as on the page. The goal's limits are dashed lines. Those of spans are in a plot of the
numbers that they limit, and over the time of the span. Over time a step in which fewer than three seeds have the number
has a dashed line and no band, and so has a setting that lost some of its rings no band. Bands of served and members go
from the least to the greatest seed. Settings in which a seed's ring was lost (an audit with ring=0) are hollow, with
the number of seeds that the mean is of, and not on the front: a dead ring is cheap. With many seeds nearly every
setting has such a seed: --most-lost 0.05 lets settings on the front that lost their ring with at most 5 of 100 seeds. A
setting off the front is "dominated" if one on it costs less and gives more by paired differences of the same seeds, at
5% for all settings together, else "not surely dominated". cost is messages per member and second if the table has them,
else all events of the run per node of the file and second. The same tables give the same bytes. A study that is not
done yet is drawn as far as it is, with a mark.

plots.json has the digests of the tables that each plot was drawn of, by which `tools/study report` knows it.

"""
PLOT_HELP += (
    "It needs numpy and matplotlib, which are Debian's packages python3-numpy and python3-matplotlib."
    if IS_INSTALLED else """\
It needs Debian's packages python3-numpy and python3-matplotlib, and Debian's Python: if another one comes first on
PATH, `/usr/bin/python3 tools/study plot FOLDER`."""
)

REPORT_HELP = """\
Writes FOLDER/answer.json, for programs (docs/studies.md), and the page FOLDER/report.md: the question; the answer to
[goal]; what is new in each world and what is the same; tables with a line a setting; links to the plots, which
`tools/study plot` draws; the commands and digests. A plot of other tables is not linked. The first table has what a
decision rests on: rings kept, served, right of begun, p50, p99, messages, each number that [goal] or [precision] names,
and the difference from the best setting. Then follow a table for each span, the times, hops and timeouts of lookups,
all other numbers, and who was taken for dead. Below each table the page says what its numbers are."""
COMPARE_HELP = """\
Compares two settings seed by seed, prints the mean differences of A less B with 95% intervals, and writes them to
FOLDER/compare.csv. Settings are named by their numbers on the page, or by their labels, as "list=4, stabilize_us=1s",
with the keys in any order. A label has the keys of the world too: "loss_ppm=0, list=4, stabilize_us=1s". Rings that
only one of them lost are compared by the exact test of McNemar."""
