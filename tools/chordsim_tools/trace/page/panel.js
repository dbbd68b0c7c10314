// Counts at the current time, the lines of a node, and the worst lookups.
const AROUND = 14;
const COUNTS = [
  ["members", "members"], ["begun", "lookups begun"], ["joining", "joining"], ["found", "found"],
  ["stranded", "stranded"], ["right", "right, strict"], ["down", "down"], ["defensible", "right, defensible"],
  ["crashes", "crashes"], ["lost", "lost"], ["leaves", "leaves"], ["cut", "cut off"],
  ["joined", "joins done"], ["timeouts", "timeouts"],
];

function makeCounts() {
  const table = d3.select("#counts");
  for (let at = 0; at < COUNTS.length; at += 2) {
    const row = table.append("tr");
    for (const [word, text] of COUNTS.slice(at, at + 2)) {
      row.append("td").text(text);
      row.append("td").attr("class", "number").attr("id", `count-${word}`);
    }
  }
  table.append("tr").append("td").attr("colspan", 4).attr("id", "audit-now");
}

// What bins have is of the last end of a bin; what nodes are is of the current time itself.
function showCounts(time) {
  const bins = run.bins, at = Math.min(Math.floor(time / bins.width), bins.count - 1);
  const [down, joining, members, stranded] = statusCounts();
  const told = { down, joining, members, stranded };
  for (const [word] of COUNTS) {
    let text = d3.format(",")(told[word] ?? bins[word][at]);
    if ((word === "right" || word === "defensible") && bins.found[at]) {
      text += ` (${shareText(bins[word][at], bins.found[at])})`;
    }
    document.getElementById(`count-${word}`).textContent = text;
  }
  const last = run.audits[d3.bisector((one) => one[0]).right(run.audits, time) - 1];
  document.getElementById("audit-now").textContent = last ? auditSummary(last) : "no audit yet";
}

function auditSummary(audit) {
  const kind = auditKind(audit), [time, members, dead, whole] = audit;
  return `audit at ${+(time / 1e6).toFixed(DIGITS)} s: ${kind === "ragged" ? "not whole" : kind}; ` +
    `ring ${whole} of ${members}, dead ${dead}`;
}

function shareText(part, of) {
  const share = part === of || part === 0 ? part / of : Math.min(Math.max(part / of, 0.0001), 0.9999);
  return `${(100 * share).toFixed(2)} %`;
}

function showNode(time) {
  if (page.node < 0) return;
  const node = page.node, lines = linesOf(node), box = d3.select("#node");
  const times = { length: lines.length };
  let low = 0, high = times.length;
  while (low < high) {
    const middle = (low + high) >> 1;
    if (run.lines.time[lines[middle]] <= time) low = middle + 1; else high = middle;
  }
  box.html("");
  box.append("h3").text(run.names[node]);
  const since = seconds(nodes.since[node], DIGITS);
  box.append("p").text(`identifier ${run.idents[node]}; ${STATUS_WORDS[nodes.status[node]]} since ${since}`);
  box.append("p").text(`${d3.format(",")(lines.length)} lines here; lines of other nodes that name it are slanted`);
  const list = box.append("ol");
  addLines(list, lines.subarray(Math.max(0, low - AROUND), low), node, "before");
  list.append("li").attr("class", "now");
  addLines(list, lines.subarray(low, low + AROUND), node, "after");
}

function addLines(list, lines, node, when) {
  for (const at of lines) {
    const text = lineText(at), rest = text.slice(text.indexOf(" ") + 1);
    list.append("li").attr("class", `${when}${run.lines.node[at] === node ? "" : " other"}`).attr("data-line", text)
      .text(`${(run.lines.time[at] / 1e6).toFixed(6).padStart(12)}  ${rest}`);
  }
}

function makeWorst() {
  const { counts } = run.worst, box = d3.select("#worst");
  const heads = {
    wrong: `Wrong answers (${counts.wrong})`, lost: `Lost lookups (${counts.lost})`, slow: "Slowest lookups",
  };
  for (const word of ["wrong", "lost", "slow"]) {
    const some = run.worst[word];
    if (!some.length) continue;
    const isPart = counts[word] > some.length;
    box.append("h3").text(heads[word] + (isPart ? `, the ${word === "lost" ? "first" : "worst"} ${some.length}` : ""));
    const table = box.append("table");
    const heading = ["end", "asker", "named", "owner", "took", "verdict"];
    table.append("tr").selectAll("th").data(heading).join("th").text((text) => text);
    for (const lookup of some) addLookup(table, lookup);
  }
  if (box.select("table").empty()) box.append("p").attr("class", "empty").text("No lookup has ended.");
}

function addLookup(table, lookup) {
  const all = run.lookups, name = (node) => (node < 0 ? "-" : run.names[node]);
  const cells = [
    seconds(all.end[lookup], DIGITS), name(all.node[lookup]), name(all.owner[lookup]), name(all.trueOwner[lookup]),
    seconds(all.end[lookup] - all.begin[lookup], DIGITS - 1), verdict(lookup),
  ];
  const row = table.append("tr").attr("data-lookup", lookup);
  row.attr("title", `lookup ${all.number[lookup]}, key ${keyOf(lookup)}`);
  row.selectAll("td").data(cells).join("td").text((text) => text);
  row.on("click", () => choose(lookup, row.node()));
}

function choose(lookup, row) {
  d3.selectAll("#worst tr.on").classed("on", false);
  d3.select(row).classed("on", true);
  stop();
  page.lookup = lookup;
  setTime(run.lookups.end[lookup]);
}

function showTab(word) {
  for (const one of ["worst", "node"]) {
    document.getElementById(one).hidden = one !== word;
    document.getElementById(`show-${one}`).classList.toggle("on", one === word);
  }
}
