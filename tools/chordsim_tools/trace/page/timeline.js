// The time line: members, share of right answers, audits, lookup times. It shows the run or a part of it.
const timeline = d3.select("#timeline");
const MARGIN = { left: 44, right: 46, top: 22, bottom: 20 };
const TIMES_HEIGHT = 62; // of the part with the lookup times, below the audits
const WINDOWS = 60;
const LEAST_VIEW = 10; // how many steps of the run are shown at least
const AUDIT_COLOURS = { right: "#3f8f6b", whole: "#3f8f6b", ragged: "#a9cdbb", torn: "#e09a1a", lost: "#c8452f" };
const TIME_COLOURS = { p50: "#5d6b78", p99: "#22303c" };
const view = { from: 0, to: run.bins.end };
let toTime = null;

function auditKind([, members, dead, whole, ordered]) {
  if (whole === 0) return "lost";
  if (!ordered || dead !== 0) return "torn";
  return whole === members ? "whole" : "ragged";
}

function setView(next) {
  Object.assign(view, next);
  drawTimeline();
  moveCursor(page.time);
}

function zoomTimeline(factor, time) {
  setView(zoomed(view, factor, time, run.bins.end, Math.min(run.bins.end, LEAST_VIEW * run.bins.width)));
}

function showWhole() { setView({ from: 0, to: run.bins.end }); }

// Moves the part that is shown by a share of its span.
function moveTimeline(share) {
  const span = view.to - view.from, from = Math.max(0, Math.min(run.bins.end - span, view.from + share * span));
  setView({ from, to: from + span });
}

// Keeps the time in the part that is shown.
function follow(time) {
  const next = showing(view, time, run.bins.end);
  if (next !== view) setView(next);
}

// The share of right answers in spans of the part that is shown; a span without answers has none.
function rightShares() {
  const { found, right, width, count } = run.bins, shares = [];
  const first = Math.floor(view.from / width), last = Math.min(count - 1, Math.ceil(view.to / width));
  const step = Math.max(1, Math.ceil((last - first) / WINDOWS));
  for (let at = first; at < last; at += step) {
    const next = Math.min(at + step, last), answers = found[next] - found[at];
    shares.push([(at + next) / 2 * width, answers ? (right[next] - right[at]) / answers : null]);
  }
  return shares;
}

function drawTimeline() {
  const box = timeline.node().getBoundingClientRect(), { members } = run.bins;
  timeline.selectAll("*").remove();
  timeline.append("clipPath").attr("id", "within").append("rect").attr("x", MARGIN.left).attr("y", 0)
    .attr("width", Math.max(1, box.width - MARGIN.left - MARGIN.right)).attr("height", box.height);
  const x = d3.scaleLinear([view.from, view.to], [MARGIN.left, box.width - MARGIN.right]);
  const below = box.height - MARGIN.bottom - TIMES_HEIGHT - 22;
  const y = d3.scaleLinear([0, Math.max(1, d3.max(members))], [below, MARGIN.top]).nice(4);
  const shares = rightShares(), least = d3.min(shares, (one) => one[1] ?? 1);
  const low = Math.min(0.9, Math.floor((least ?? 1) * 10) / 10);
  const share = d3.scaleLinear([low, 1], [below, MARGIN.top]);
  toTime = x;
  const bottom = box.height - MARGIN.bottom;
  axis(d3.axisBottom(x).ticks(12).tickFormat((time) => `${+(time / 1e6).toPrecision(6)} s`), 0, bottom);
  axis(d3.axisLeft(y).ticks(4).tickSizeOuter(0), MARGIN.left, 0);
  axis(d3.axisRight(share).ticks(4, "%").tickSizeOuter(0), box.width - MARGIN.right, 0);
  drawMemberArea(x, y);
  const line = d3.line().defined((one) => one[1] !== null).x((one) => x(one[0])).y((one) => share(one[1]));
  path(line(shares), "none").attr("stroke", AUDIT_COLOURS.right).attr("stroke-width", 1.8);
  drawAudits(x, below + 7);
  drawTimes(x, bottom);
  timeline.append("line").attr("id", "cursor").attr("stroke", "#22303c").attr("clip-path", "url(#within)")
    .attr("y1", MARGIN.top - 4).attr("y2", bottom);
  drawCaptions();
}

function path(made, fill) {
  return timeline.append("path").attr("d", made).attr("fill", fill).attr("clip-path", "url(#within)");
}

function drawMemberArea(x, y) {
  const { members, width, end } = run.bins;
  const area = d3.area().curve(d3.curveStepAfter).x((_, at) => x(Math.min(at * width, end))).y0(y(0)).y1(y);
  path(area(members), "#2f6f9f").attr("opacity", 0.22);
}

// The percentiles of the lookups that begin in each step of the run.
function drawTimes(x, bottom) {
  const { step, p50, p99 } = run.times, within = d3.range(p50.length)
    .filter((at) => (at + 1) * step >= view.from && at * step <= view.to);
  const most = d3.max(within, (at) => p99[at] ?? p50[at]) || 1;
  const y = d3.scaleLinear([0, most / 1e6], [bottom, bottom - TIMES_HEIGHT]).nice(3);
  axis(d3.axisLeft(y).ticks(3).tickFormat((time) => `${time} s`).tickSizeOuter(0), MARGIN.left, 0);
  for (const [word, values] of [["p50", p50], ["p99", p99]]) {
    const line = d3.line().defined((at) => values[at] !== null)
      .x((at) => x((at + 0.5) * step)).y((at) => y(values[at] / 1e6));
    path(line(within), "none").attr("class", `times ${word}`).attr("stroke", TIME_COLOURS[word])
      .attr("stroke-width", 1.4).attr("stroke-dasharray", word === "p50" ? "3 2" : null);
  }
}

function drawCaptions() {
  const next = caption(MARGIN.left, "members", "#2f6f9f");
  const last = caption(next, "right answers, strict (right axis)", AUDIT_COLOURS.right);
  const times = caption(last, "lookup times (below): p99, and p50 dashed", TIME_COLOURS.p99);
  const told = { whole: "audit: whole", ragged: "audit: not whole", torn: "audit: torn", lost: "audit: lost" };
  Object.keys(told).reduce((x, kind) => caption(x, told[kind], AUDIT_COLOURS[kind], true), times + 24);
}

function axis(made, x, y) {
  timeline.append("g").attr("transform", `translate(${x},${y})`).call(made);
}

// A caption above the plot, with a box of its colour if it tells of audits. Returns where the next one begins.
function caption(x, text, colour, isBox = false) {
  if (isBox) timeline.append("rect").attr("x", x).attr("y", 5).attr("width", 4).attr("height", 8).attr("fill", colour);
  const told = timeline.append("text").attr("x", x + (isBox ? 9 : 0)).attr("y", 13).text(text);
  if (!isBox) told.style("fill", colour).style("font-weight", 600);
  return x + told.node().getComputedTextLength() + (isBox ? 25 : 18);
}

function drawAudits(x, y) {
  const within = run.audits.filter((one) => one[0] >= view.from && one[0] <= view.to);
  timeline.append("g").selectAll("rect").data(within).join("rect").attr("class", (one) => `audit ${auditKind(one)}`)
    .attr("x", (one) => x(one[0]) - 2).attr("y", y - 3).attr("width", 4).attr("height", 7)
    .attr("fill", (one) => AUDIT_COLOURS[auditKind(one)])
    .append("title").text((one) => `audit at ${seconds(one[0])}: ${auditText(one)}`);
}

function auditText([, members, dead, whole, ordered, principals, sufficient]) {
  return `members=${members} dead=${dead} ring=${whole} ordered=${ordered ? "yes" : "no"} ` +
    `principals=${principals} sufficient=${sufficient ? "yes" : "no"}`;
}

function moveCursor(time) {
  d3.select("#cursor").attr("x1", toTime(time)).attr("x2", toTime(time));
}
