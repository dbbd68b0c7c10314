// The ring, on a canvas.
const COLOURS = ["#aab4bd", "#7a6bb0", "#2f6f9f", "#e09a1a"];
// Members by their groups: colours that differ for most kinds of colour blindness, none of them amber or red.
const GROUP_COLOURS = ["#0072b2", "#009e73", "#cc79a7", "#8c6d31", "#56b4e9", "#7fbf3f", "#3b4cc0", "#6b7c8c"];
const HAS_GROUPS = run.groups.length > 1;
const DEPTH = [0.16, 0.06, 0, 0.1]; // how far inside the circle a node is drawn, by its status
const LONGEST_LOOKUP = d3.max(run.lookups.begin, (begin, at) => endOf(at) - begin) || 0;
const canvas = document.getElementById("ring"), pen = canvas.getContext("2d");
const ring = { width: 0, height: 0, radius: 0, zoom: d3.zoomIdentity, hovered: -1 };

function pointAt(place, depth = 0) {
  const angle = 2 * Math.PI * place, radius = ring.radius * (1 - depth);
  return [ring.width / 2 + radius * Math.sin(angle), ring.height / 2 - radius * Math.cos(angle)];
}

function pointOf(node) { return pointAt(run.places[node], DEPTH[nodes.status[node]]); }
function dotSize() { return run.names.length <= 100 ? 5.5 : run.names.length <= 600 ? 3.2 : 1.7; }

function resize() {
  const box = canvas.getBoundingClientRect(), scale = window.devicePixelRatio || 1;
  ring.width = box.width;
  ring.height = box.height;
  ring.radius = Math.max(40, Math.min(box.width, box.height) / 2 - (run.names.length <= 100 ? 58 : 18));
  canvas.width = Math.round(box.width * scale);
  canvas.height = Math.round(box.height * scale);
}

function drawRing(time) {
  const scale = window.devicePixelRatio || 1, k = ring.zoom.k;
  pen.setTransform(scale, 0, 0, scale, 0, 0);
  pen.clearRect(0, 0, ring.width, ring.height);
  pen.translate(ring.zoom.x, ring.zoom.y);
  pen.scale(k, k);
  pen.lineWidth = 1 / k;
  pen.strokeStyle = "#d9dfe4";
  pen.beginPath();
  pen.arc(ring.width / 2, ring.height / 2, ring.radius, 0, 2 * Math.PI);
  pen.stroke();
  drawLookups(time, k);
  drawNodes(DOWN, k);
  drawMembers(k);
  for (const status of [JOINING, STRANDED]) drawNodes(status, k);
  if (run.names.length <= 100 || k > run.names.length / 70) drawNames(k);
  if (page.lookup >= 0) drawChosen(page.lookup, k);
  for (const node of [ring.hovered, page.node]) if (node >= 0) drawHalo(node, k);
}

function groupColour(group) { return GROUP_COLOURS[group % GROUP_COLOURS.length]; }

function drawMembers(k) {
  if (!HAS_GROUPS) drawNodes(MEMBER, k);
  else run.groups.forEach((_, group) => drawNodes(MEMBER, k, group));
}

// The nodes of a status, and of a group if one is given.
function drawNodes(status, k, group = -1) {
  const size = dotSize() / Math.sqrt(k);
  pen.beginPath();
  for (let node = 0; node < nodes.status.length; node++) {
    if (nodes.status[node] !== status || (group >= 0 && run.group[node] !== group)) continue;
    const [x, y] = pointOf(node);
    if (status === STRANDED) pen.rect(x - size, y - size, 2 * size, 2 * size);
    else if (status === JOINING) {
      pen.moveTo(x, y - 1.3 * size);
      pen.lineTo(x + 1.2 * size, y + size);
      pen.lineTo(x - 1.2 * size, y + size);
      pen.closePath();
    } else {
      pen.moveTo(x + size, y);
      pen.arc(x, y, size, 0, 2 * Math.PI);
    }
  }
  if (status === DOWN) {
    pen.strokeStyle = COLOURS[DOWN];
    pen.lineWidth = 1.4 / Math.sqrt(k);
    pen.stroke();
  } else {
    pen.fillStyle = group < 0 ? COLOURS[status] : groupColour(group);
    pen.fill();
  }
}

const LEVELS = [19, 32, 45]; // how far outside the circle names are drawn, in pixels

// Each name is at the nearest distance from the circle at which it covers no other one. Members come first.
function drawNames(k) {
  pen.font = `${11 / k}px system-ui, "DejaVu Sans", sans-serif`;
  pen.textAlign = "center";
  pen.textBaseline = "middle";
  const taken = [];
  for (const isMember of [true, false]) {
    pen.fillStyle = isMember ? "#22303c" : "#aab4bd";
    for (let node = 0; node < run.names.length; node++) {
      if ((nodes.status[node] === MEMBER) === isMember && isShown(run.places[node])) drawName(node, k, taken);
    }
  }
}

function isShown(place) {
  const [x, y] = ring.zoom.apply(pointAt(place));
  return x > -40 && y > -40 && x < ring.width + 40 && y < ring.height + 40;
}

function drawName(node, k, taken) {
  const half = pen.measureText(run.names[node]).width / 2 + 1 / k;
  const boxes = LEVELS.map((level) => {
    const [x, y] = pointAt(run.places[node], -level / k / ring.radius);
    return { left: x - half, right: x + half, top: y - 6.5 / k, bottom: y + 6.5 / k };
  });
  const box = firstFree(boxes, taken);
  if (box === null) return;
  taken.push(box);
  pen.fillText(run.names[node], (box.left + box.right) / 2, (box.top + box.bottom) / 2);
}

function drawHalo(node, k) {
  const [x, y] = pointOf(node);
  pen.strokeStyle = "#22303c";
  pen.lineWidth = 2 / k;
  pen.beginPath();
  pen.arc(x, y, (dotSize() + 5) / Math.sqrt(k), 0, 2 * Math.PI);
  pen.stroke();
}

function curve(from, to, colour, width, dash = []) {
  pen.strokeStyle = colour;
  pen.lineWidth = width;
  pen.setLineDash(dash);
  pen.beginPath();
  pen.moveTo(...from);
  // Lines bend to the middle, so that those between neighbours can be seen.
  const x = (from[0] + to[0]) / 4 + ring.width / 4, y = (from[1] + to[1]) / 4 + ring.height / 4;
  pen.quadraticCurveTo(x, y, ...to);
  pen.stroke();
  pen.setLineDash([]);
}

function drawLookups(time, k) {
  const { begin, end, node, place } = run.lookups;
  for (let at = placeAfter(begin, time) - 1; at >= 0 && begin[at] >= time - LONGEST_LOOKUP; at--) {
    if (end[at] >= 0 && end[at] <= time) continue;
    const isBad = outcomeOf(at) === 1 || (outcomeOf(at) === 0 && !isDefensible(at));
    const colour = isBad ? "#c8452f" : outcomeOf(at) === 0 && !isRight(at) ? "#a08fc4" : "#8fb0c8";
    curve(pointOf(node[at]), pointAt(place[at]), colour, (isBad ? 1.8 : 1) / k);
  }
}

function drawChosen(lookup, k) {
  const all = run.lookups, from = pointOf(all.node[lookup]), key = pointAt(all.place[lookup]);
  const owner = all.owner[lookup], right = all.trueOwner[lookup];
  if (right >= 0) curve(from, pointOf(right), "#3f8f6b", 2 / k, [6 / k, 4 / k]);
  if (owner >= 0) curve(from, pointOf(owner), isRight(lookup) ? "#3f8f6b" : "#c8452f", 2.2 / k);
  const marks = [[from, `asker ${run.names[all.node[lookup]]}`, "#22303c"]];
  if (owner >= 0 && isRight(lookup)) marks.push([pointOf(owner), `named ${run.names[owner]}, rightly`, "#3f8f6b"]);
  if (owner >= 0 && !isRight(lookup)) marks.push([pointOf(owner), `named ${run.names[owner]}`, "#c8452f"]);
  if (right >= 0 && right !== owner) marks.push([pointOf(right), `right owner ${run.names[right]}`, "#3f8f6b"]);
  if (owner < 0) marks.push([key, "key", "#22303c"]);
  pen.strokeStyle = "#22303c";
  pen.lineWidth = 2 / k;
  pen.beginPath();
  pen.moveTo(...pointAt(all.place[lookup], 8 / k / ring.radius));
  pen.lineTo(...pointAt(all.place[lookup], -8 / k / ring.radius));
  pen.stroke();
  drawMarks(marks, k);
}

// Circles around points, and their labels inside the ring, none of which covers another one.
function drawMarks(marks, k) {
  pen.font = `600 ${12 / k}px system-ui, "DejaVu Sans", sans-serif`;
  pen.textBaseline = "middle";
  const boxes = marks.map(([[x, y], text]) => labelBox(x, y, pen.measureText(text).width, k, ring.width / 2));
  const heights = apart(boxes, 15 / k);
  marks.forEach(([[x, y], text, colour], at) => {
    const isLeft = x < ring.width / 2, edge = isLeft ? boxes[at].left : boxes[at].right;
    pen.strokeStyle = colour;
    pen.lineWidth = 2.5 / k;
    pen.beginPath();
    pen.arc(x, y, (dotSize() + 3.5) / Math.sqrt(k), 0, 2 * Math.PI);
    pen.stroke();
    pen.lineWidth = 1 / k;
    pen.beginPath();
    pen.moveTo(x, y);
    pen.lineTo(edge, heights[at]);
    pen.stroke();
    pen.textAlign = isLeft ? "left" : "right";
    pen.lineWidth = 4 / k;
    pen.strokeStyle = "#ffffff";
    pen.strokeText(text, edge, heights[at]);
    pen.fillStyle = colour;
    pen.fillText(text, edge, heights[at]);
  });
}

// The node nearest to a point of the canvas, or -1.
function nodeAt(x, y) {
  const [px, py] = ring.zoom.invert([x, y]);
  let best = -1, least = (14 / ring.zoom.k) ** 2;
  for (let node = 0; node < run.names.length; node++) {
    const [nx, ny] = pointOf(node), far = (nx - px) ** 2 + (ny - py) ** 2;
    if (far < least) [best, least] = [node, far];
  }
  return best;
}
