// The run: what the page embeds, decoded, and the state of all nodes at a time.
const NUMBERS = {
  time: Float64Array, begin: Float64Array, end: Float64Array, place: Float64Array, places: Float64Array,
  node: Int32Array, group: Int32Array, owner: Int32Array, trueOwner: Int32Array, missed: Int32Array,
  other: Int32Array, number: Int32Array,
};
const raw = JSON.parse(document.getElementById("data").textContent);

function unpacked(text, kind) {
  const bytes = atob(text);
  const all = new Uint8Array(bytes.length);
  for (let at = 0; at < bytes.length; at++) all[at] = bytes.charCodeAt(at);
  return kind === Uint8Array ? all : new kind(all.buffer);
}

function columns(packed) {
  const found = {};
  for (const word in packed) {
    found[word] = word === "keySize" ? packed[word] : unpacked(packed[word], NUMBERS[word] || Uint8Array);
  }
  return found;
}

const run = { ...raw, places: unpacked(raw.places, Float64Array), initial: unpacked(raw.initial, Uint8Array),
  group: unpacked(raw.group, Int32Array),
  lines: columns(raw.lines), lookups: columns(raw.lookups) };
const CODE = Object.fromEntries(run.kinds.map((kind, code) => [kind, code]));
const DOWN = 0, JOINING = 1, MEMBER = 2, STRANDED = 3;
const STATUS_WORDS = ["down", "joining", "member", "stranded, joins again"];
const CHANGES = new Map([[CODE.join, JOINING], [CODE.member, MEMBER], [CODE["join-failed"], DOWN], [CODE.crash, DOWN],
  [CODE.leave, DOWN], [CODE.stranded, STRANDED], [CODE.create, MEMBER]]);
// A node whose join goes on after failures stays as it is.
if (run.joinForever) CHANGES.delete(CODE["join-failed"]);
const OUTCOMES = ["found", "lost", "cut off by a crash", "cut off by the end", "cut off by a leave"];

// Short runs are told to the microsecond.
const DIGITS = run.bins.end < 1e7 ? 6 : 3;

function seconds(micros, digits = 6) {
  return (micros / 1e6).toFixed(digits) + " s";
}

function keyOf(lookup) {
  const { key, keySize } = run.lookups;
  let value = 0n;
  for (let at = lookup * keySize; at < (lookup + 1) * keySize; at++) value = (value << 8n) | BigInt(key[at]);
  return value.toString();
}

// What lines `ask` say behind the node that was asked, by their places.
const RESTS = new Map();
run.lines.kind.forEach((kind, at) => {
  if (run.kinds[kind].startsWith("ask ")) RESTS.set(at, run.asks[RESTS.size]);
});

function lineText(at) {
  const kind = run.lines.kind[at], other = run.lines.other[at], all = run.lookups;
  const start = `${run.lines.time[at]} ${run.names[run.lines.node[at]]} ${run.kinds[kind]}`;
  if (kind === CODE.busy) return `${start} ${run.busyKeys[other]}`;
  if (kind === CODE.lookup) return `${start} ${keyOf(other)}`;
  if (kind === CODE.found || kind === CODE.lost) {
    const owner = kind === CODE.found ? ` ${run.names[all.owner[other]]}` : "";
    const ended = `hops=${all.hops[other]} timeouts=${all.timeouts[other]} us=${all.end[other] - all.begin[other]}`;
    return `${start} ${keyOf(other)}${owner} ${ended}`;
  }
  return other < 0 ? start : `${start} ${run.names[other]}${RESTS.get(at) ?? ""}`;
}

function namedBy(at) {
  const kind = run.lines.kind[at], other = run.lines.other[at];
  if (kind === CODE.found) return run.lookups.owner[other];
  return kind === CODE.lookup || kind === CODE.lost || kind === CODE.busy ? -1 : other;
}

// The first place at which a column in ascending order is above a value.
function placeAfter(column, value) {
  let low = 0, high = column.length;
  while (low < high) {
    const middle = (low + high) >> 1;
    if (column[middle] <= value) low = middle + 1; else high = middle;
  }
  return low;
}

// For each node the lines that are its own or name it: the ones of node n are those from starts[n] to starts[n + 1].
const linesOf = (() => {
  const count = run.lines.time.length, starts = new Uint32Array(run.names.length + 1);
  const each = (take) => {
    for (let at = 0; at < count; at++) {
      const own = run.lines.node[at], named = namedBy(at);
      take(own, at);
      if (named >= 0 && named !== own) take(named, at);
    }
  };
  each((node) => { starts[node + 1]++; });
  for (let node = 0; node < run.names.length; node++) starts[node + 1] += starts[node];
  const next = starts.slice(), all = new Uint32Array(starts[run.names.length]);
  each((node, at) => { all[next[node]++] = at; });
  return (node) => all.subarray(starts[node], starts[node + 1]);
})();

// The changes of nodes, and what all nodes are after those until the current time.
const changes = Uint32Array.from({ length: run.lines.time.length }, (_, at) => at)
  .filter((at) => CHANGES.has(run.lines.kind[at]));
const nodes = { status: new Uint8Array(run.names.length), since: new Float64Array(run.names.length), next: 0 };

function restart() {
  for (let node = 0; node < run.names.length; node++) nodes.status[node] = run.initial[node] ? MEMBER : DOWN;
  nodes.since.fill(0);
  nodes.next = 0;
}

function goTo(time) {
  if (nodes.next > 0 && run.lines.time[changes[nodes.next - 1]] > time) restart();
  while (nodes.next < changes.length && run.lines.time[changes[nodes.next]] <= time) {
    const at = changes[nodes.next++], node = run.lines.node[at];
    nodes.status[node] = CHANGES.get(run.lines.kind[at]);
    nodes.since[node] = run.lines.time[at];
  }
}

function statusCounts() {
  const counts = [0, 0, 0, 0];
  for (const status of nodes.status) counts[status]++;
  return counts;
}

// A lookup that is open at the trace's end has -1.
function endOf(lookup) { return run.lookups.end[lookup] < 0 ? run.reached : run.lookups.end[lookup]; }
function isRight(lookup) { return (run.lookups.flags[lookup] & 8) !== 0; }
function isDefensible(lookup) { return (run.lookups.flags[lookup] & 16) !== 0; }
function outcomeOf(lookup) { return run.lookups.flags[lookup] & 7; }

function verdict(lookup) {
  const outcome = outcomeOf(lookup);
  if (outcome !== 0) return OUTCOMES[outcome];
  if (isRight(lookup)) return "right";
  if (isDefensible(lookup)) return "defensible";
  return run.lookups.flags[lookup] & 32 ? "misses a member" : "names no member";
}
restart();
