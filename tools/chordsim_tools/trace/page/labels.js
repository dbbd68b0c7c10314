// Where labels are: beside their points, on the side of the ring's middle, and apart from each other.
function labelBox(x, y, width, k, middle) {
  const from = x + (x < middle ? 14 : -14) / k;
  return x < middle ? { left: from, right: from + width, y } : { left: from - width, right: from, y };
}

// The heights of labels, from the highest to the lowest: each is lowered below those that it would cover.
function apart(boxes, line) {
  const heights = boxes.map((box) => box.y), placed = [];
  const order = boxes.map((_, at) => at).sort((a, b) => boxes[a].y - boxes[b].y);
  for (const at of order) {
    const beside = placed.filter((other) => boxes[other].left < boxes[at].right && boxes[at].left < boxes[other].right);
    for (const other of beside) {
      if (Math.abs(heights[at] - heights[other]) < line) heights[at] = heights[other] + line;
    }
    placed.push(at);
  }
  return heights;
}

function cover(one, other) {
  return one.left < other.right && other.left < one.right && one.top < other.bottom && other.top < one.bottom;
}

// The first box that covers none of those that are taken, or null.
function firstFree(boxes, taken) {
  return boxes.find((box) => !taken.some((other) => cover(box, other))) ?? null;
}

// The time that an address has behind its #, in microseconds, or null.
function timeOfAddress(hash) {
  const match = /^#t=([0-9]+(?:\.[0-9]+)?)$/.exec(hash);
  return match === null ? null : Math.round(Number(match[1]) * 1e6);
}

function addressOfTime(time) { return `#t=${+(time / 1e6).toFixed(6)}`; }

// A part of the run after a zoom by a factor around a time: not beyond the run, and not shorter than the least span.
function zoomed(view, factor, time, end, least) {
  const span = Math.min(end, Math.max(least, (view.to - view.from) / factor));
  const share = (time - view.from) / (view.to - view.from);
  const from = Math.max(0, Math.min(end - span, time - share * span));
  return { from, to: from + span };
}

// The same part, moved as little as shows a time.
function showing(view, time, end) {
  const span = view.to - view.from;
  if (time >= view.from && time <= view.to) return view;
  const from = Math.max(0, Math.min(end - span, time < view.from ? time : time - span));
  return { from, to: from + span };
}
