// What the reader does: time, play, keys, clicks.
const page = { time: 0, node: -1, lookup: -1, isPlaying: false, last: 0, shown: 0 };
const slider = document.getElementById("time"), speed = document.getElementById("speed");
const SPEEDS = [0.01, 0.1, 0.25, 0.5, 1, 2, 5, 10, 30, 100, 1000, 10000];

function setTime(time) {
  page.time = Math.max(0, Math.min(time, run.bins.end));
  slider.value = Math.round(page.time / run.bins.width);
  follow(page.time);
  show();
}

// The address has the time, but for while the run plays.
function writeAddress() {
  if (!page.isPlaying && location.hash !== addressOfTime(page.time)) {
    history.replaceState(null, "", addressOfTime(page.time));
  }
}

function readAddress() {
  const time = timeOfAddress(location.hash);
  if (time === null || time === page.time) return;
  stop();
  setTime(time);
}

function show() {
  goTo(page.time);
  drawRing(page.time);
  moveCursor(page.time);
  // Texts are slow to lay out: while the run plays they change eight times a second.
  const now = performance.now();
  if (page.isPlaying && now < page.shown + 125) return;
  page.shown = now;
  showCounts(page.time);
  showNode(page.time);
  const end = +(run.bins.end / 1e6).toFixed(DIGITS);
  writeAddress();
  document.getElementById("now").textContent = `${seconds(page.time, DIGITS)} of ${end} s`;
}

function play() {
  if (page.time >= run.bins.end) setTime(0);
  page.isPlaying = true;
  page.lookup = -1;
  page.last = performance.now();
  document.getElementById("play").textContent = "Stop";
  requestAnimationFrame(tick);
}

function stop() {
  if (!page.isPlaying) return;
  page.isPlaying = false;
  document.getElementById("play").textContent = "Play";
  show();
}

function tick(now) {
  if (!page.isPlaying) return;
  const gone = (now - page.last) * 1000 * Number(speed.value);
  page.last = now;
  setTime(page.time + Math.max(0, gone));
  if (page.time >= run.bins.end) stop(); else requestAnimationFrame(tick);
}

function step(bins) {
  stop();
  setTime((Math.floor(page.time / run.bins.width + (bins < 0 ? 0.999 : 0)) + bins) * run.bins.width);
}

function onKey(event) {
  if (event.target.tagName === "SELECT") return;
  const far = event.shiftKey ? 10 : 1;
  const keys = {
    ArrowRight: () => step(far), ArrowLeft: () => step(-far),
    Home: () => setTime(0), End: () => setTime(run.bins.end),
    " ": () => (page.isPlaying ? stop() : play()),
    "+": () => zoomTimeline(2, page.time), "-": () => zoomTimeline(0.5, page.time), 0: showWhole,
  };
  if (!(event.key in keys)) return;
  keys[event.key]();
  event.preventDefault();
}

function onWheel() {
  const event = d3.event, [x] = d3.mouse(timeline.node());
  event.preventDefault();
  const way = Math.abs(event.deltaX) > Math.abs(event.deltaY) ? event.deltaX : event.deltaY;
  if (event.shiftKey || event.deltaX) moveTimeline(way / 500);
  else zoomTimeline(2 ** (-way / 200), toTime.invert(x));
}

function onClick(event) {
  const node = nodeAt(event.offsetX, event.offsetY);
  if (node < 0) return;
  page.node = node;
  showTab("node");
  show();
}

function onMove(event) {
  const node = nodeAt(event.offsetX, event.offsetY), tip = document.getElementById("tip");
  tip.hidden = node < 0;
  canvas.style.cursor = node < 0 ? "grab" : "pointer";
  if (node >= 0) {
    tip.textContent = `${run.names[node]}: ${STATUS_WORDS[nodes.status[node]]}` +
      (HAS_GROUPS && run.groups[run.group[node]] ? ` (${run.groups[run.group[node]]})` : "");
    tip.style.left = `${Math.min(event.offsetX + 14, ring.width - 180)}px`;
    tip.style.top = `${event.offsetY + 10}px`;
  }
  if (node !== ring.hovered) {
    ring.hovered = node;
    drawRing(page.time);
  }
}

function makeSpeeds() {
  const wanted = run.bins.end / 1e6 / 40, far = (one) => Math.abs(Math.log(one / wanted));
  const best = SPEEDS.reduce((a, b) => (far(b) < far(a) ? b : a));
  d3.select(speed).selectAll("option").data(SPEEDS).join("option").attr("value", (one) => one)
    .property("selected", (one) => one === best).text((one) => `${one} s a second`);
}

function makeGroups() {
  if (!HAS_GROUPS) return;
  const after = document.getElementById("member-legend");
  after.hidden = true;
  const next = after.nextSibling;
  d3.select("#legend").selectAll("li.group").data(run.groups).enter()
    .insert("li", () => next).attr("class", "group")
    .html((_, at) => `<i style="background: ${groupColour(at)}"></i>`)
    .append("span").text((name) => `member of ${name || "no group"}`);
}

function about() {
  const told = [`${d3.format(",")(run.names.length)} nodes`, `${+(run.bins.end / 1e6).toFixed(6)} s`];
  if (!run.isWhole) told.push(`THE TRACE ENDS EARLY: of ${run.duration / 1e6} s it reaches ${run.reached / 1e6} s`);
  document.getElementById("about").textContent = told.join(", ");
  if (run.lookups.node.length < run.bins.begun[run.bins.count - 1]) {
    document.getElementById("lookup-legend").textContent = "lookup (only the worst are in this page)";
  }
  if (run.leftOut.length) {
    document.getElementById("left-out").textContent =
      `Not in this page, to keep it small: ${run.leftOut.join("; ")}. The counts are of all lines.`;
  }
}

function draw() {
  resize();
  drawTimeline();
  show();
}

function start() {
  slider.max = run.bins.count - 1;
  makeSpeeds();
  makeGroups();
  makeCounts();
  makeWorst();
  about();
  slider.addEventListener("input", () => {
    stop();
    page.time = Math.min(slider.value * run.bins.width, run.bins.end);
    follow(page.time);
    show();
  });
  document.getElementById("play").addEventListener("click", () => (page.isPlaying ? stop() : play()));
  for (const word of ["worst", "node"]) {
    document.getElementById(`show-${word}`).addEventListener("click", () => showTab(word));
  }
  canvas.addEventListener("click", onClick);
  canvas.addEventListener("mousemove", onMove);
  d3.select(canvas).call(d3.zoom().scaleExtent([1, 200]).on("zoom", () => {
    ring.zoom = d3.event.transform;
    drawRing(page.time);
  }));
  timeline.on("mousedown", () => { stop(); setTime(toTime.invert(d3.mouse(timeline.node())[0])); });
  timeline.on("mousemove", () => { if (d3.event.buttons & 1) setTime(toTime.invert(d3.mouse(timeline.node())[0])); });
  timeline.on("wheel", onWheel);
  document.getElementById("whole").addEventListener("click", showWhole);
  document.addEventListener("keydown", onKey);
  window.addEventListener("resize", draw);
  window.addEventListener("hashchange", readAddress);
  page.time = Math.min(timeOfAddress(location.hash) ?? 0, run.bins.end);
  slider.value = Math.round(page.time / run.bins.width);
  draw();
  document.body.dataset.ready = performance.now().toFixed(0);
}
start();
