// Lanes with their bars, packed into tracks. A bar is a task's time on a lane.

const ROOMY = { track: 18, head: 15, gap: 4, least: 22, text: true };
const DENSE = { track: 6, head: 10, gap: 3, least: 16, text: false };
const MOST_ROOMY_TRACKS = 80;

// The first entry at which nothing of the bar runs any more; its row may stay for longer, as history.
function activeTo(bar) {
  const ended = bar.stretches.find((stretch) => hasEnded(stretch.point));
  return ended ? ended.from + 1 : bar.to;
}

function barOf(life, stretches) {
  const bar = { life, stretches, from: stretches[0].from, to: stretches[stretches.length - 1].to };
  bar.activeTo = activeTo(bar);
  return bar;
}

// A task's bars by the node that it is on; null is where it has none.
function barsByNode(life) {
  const bars = [];
  let stretches = [];
  const flush = () => { if (stretches.length) bars.push(barOf(life, stretches)); };
  for (const stretch of stretchesOf(life)) {
    if (stretches.length && stretches[0].point.node !== stretch.point.node) {
      flush();
      stretches = [];
    }
    stretches.push(stretch);
  }
  flush();
  return bars;
}

// Each bar goes to the first track where nothing is active any more; `shownTo` is where the next one begins.
function packed(bars) {
  const tracks = [];
  const free = [];
  for (const bar of [...bars].sort((a, b) => a.from - b.from || a.life.id - b.life.id)) {
    let track = free.findIndex((entry) => entry <= bar.from);
    if (track < 0) track = tracks.push([]) - 1;
    const before = tracks[track][tracks[track].length - 1];
    if (before) before.shownTo = Math.min(before.to, bar.from);
    bar.shownTo = bar.to;
    tracks[track].push(bar);
    free[track] = bar.activeTo;
  }
  return tracks;
}

// What a lane says of its own row: a node that isn't READY and ACTIVE, the standing of a service's update.
function bandsOf(life) {
  const words = {
    node: ({ state, desired }) => [state === "READY" ? "" : state, desired === "ACTIVE" ? "" : desired],
    service: ({ state }) => [state === "-" ? "" : state],
  };
  const bands = stretchesOf(life).map(({ point, from, to }) => {
    const { state, desired } = point;
    return { from, to, text: words[life.kind](point).filter(Boolean).join(", "), state, desired };
  });
  if (life.gone !== Infinity) bands.push({ from: life.gone, to: Infinity, text: "gone", state: "GONE" });
  return bands.filter((band) => band.text);
}

function laneOf(kind, life, name, tracks, marks = []) {
  return { kind, life, name, tracks, marks, bands: life ? bandsOf(life) : [] };
}

function nodeLanes(history) {
  const bars = groupedBy(history.tasks.flatMap(barsByNode), (bar) => bar.stretches[0].point.node);
  const marks = groupedBy(history.marks, (mark) => mark.node);
  const lanes = history.nodes.map((life) =>
    laneOf("node", life, nameOf(life, Infinity), packed(bars.get(life.id) || []), marks.get(life.id)));
  const waiting = bars.get(null) || [];
  return waiting.length ? [...lanes, laneOf("waiting", null, "waits for a node", packed(waiting))] : lanes;
}

// In the lane of a service each place has tracks of its own, in order.
function serviceLanes(history) {
  const lanes = [];
  const byService = groupedBy(history.tasks, (life) => life.service);
  for (const id of new Set([...history.services.map((life) => life.id), ...byService.keys()])) {
    const byPlace = groupedBy(byService.get(id) || [], (life) => life.place);
    const places = [...byPlace.keys()].sort((a, b) => a.localeCompare(b, "en", { numeric: true }));
    const tracks = places.flatMap((place) =>
      packed(byPlace.get(place).map((life) => barOf(life, stretchesOf(life)))));
    const life = history.service.get(id);
    lanes.push(laneOf("service", life, life ? nameOf(life, Infinity) : String(id), tracks));
  }
  return lanes;
}

function groupedBy(values, key) {
  const groups = new Map();
  for (const value of values) {
    const group = groups.get(key(value));
    if (group) group.push(value);
    else groups.set(key(value), [value]);
  }
  return groups;
}

// All lanes from top to bottom with their heights; the first has the lines of the script.
function layoutOf(history, kind) {
  const lanes = kind === "service" ? serviceLanes(history) : nodeLanes(history);
  const size = d3.sum(lanes, (lane) => lane.tracks.length) > MOST_ROOMY_TRACKS ? DENSE : ROOMY;
  let top = 0;
  for (const lane of lanes) {
    lane.head = lane.marks.length || lane.bands.length || lane.kind === "node" ? size.head : 0;
    lane.top = top;
    lane.height = Math.max(size.least, lane.head + lane.tracks.length * size.track + size.gap);
    top += lane.height;
  }
  return { lanes, size, height: top };
}

const trackTop = (layout, lane, track) => lane.top + lane.head + track * layout.size.track + 1;
