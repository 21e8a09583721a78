// What the events say: for each row the points of its life, each holding from its entry up to the next one's.

const TASK_STATES = ["NEW", "PENDING", "ASSIGNED", "ACCEPTED", "PREPARING", "READY", "STARTING", "RUNNING", "COMPLETE",
  "SHUTDOWN", "FAILED", "REJECTED", "REMOVE", "ORPHANED"];
const RANK = new Map(TASK_STATES.map((state, rank) => [state, rank]));
const SHOWN = {
  node: ["name", "state", "desired"],
  service: ["name", "state"],
  task: ["name", "state", "desired", "node", "note"],
};

const hasEnded = (point) => RANK.get(point.state) > RANK.get("RUNNING");
const isStopping = (point) => RANK.get(point.desired) >= RANK.get("SHUTDOWN") && !hasEnded(point);
const rightOfEntry = d3.bisector((point) => point.entry).right;

function lifeOf(kind, [id, points, gone, service, place]) {
  const read = ([entry, ...values]) =>
    Object.fromEntries([["entry", entry], ...SHOWN[kind].map((key, i) => [key, values[i]])]);
  return { kind, id, points: points.map(read), gone: gone || Infinity, service, place };
}

// The row as it is after an entry; nothing where it isn't there.
function pointAt(life, entry) {
  if (entry >= life.gone) return undefined;
  return life.points[rightOfEntry(life.points, entry) - 1];
}

// The stretches of a life: each point with the entry at which the next one, or the end, comes.
function stretchesOf(life) {
  return life.points.map((point, i) => {
    const next = life.points[i + 1];
    return { point, from: point.entry, to: next ? next.entry : life.gone };
  });
}

// A line of the script that isn't a duty, a tick or a look makes something happen; a look only asks.
const LOOKS = new Set(["list", "inspect", "clock", "watch", "settle"]);
function kindOfEntry(text) {
  const word = text.split(" ", 1)[0];
  if (word === "duty" || word === "tick" || word === "halt") return word;
  return LOOKS.has(word) ? "look" : "call";
}

function readHistory(data) {
  const lives = (kind) => data[`${kind}s`].map((row) => lifeOf(kind, row));
  const byId = (rows) => new Map(rows.map((row) => [row.id, row]));
  const history = {
    count: data.clock.length,
    clock: [0, ...data.clock],
    caller: [0, ...data.caller],
    text: ["", ...data.text],
    reply: (entry) => data.reply[entry] || "",
    marks: data.marks.map(([entry, node, kind]) => ({ entry, node, kind })),
    nodes: lives("node"),
    services: lives("service"),
    tasks: lives("task"),
  };
  history.kinds = history.text.map((text, entry) => (entry ? kindOfEntry(text) : "halt"));
  history.calls = d3.range(1, history.count + 1).filter((entry) => history.kinds[entry] === "call");
  history.node = byId(history.nodes);
  history.service = byId(history.services);
  history.task = byId(history.tasks);
  history.changes = changesByEntry(history);
  return history;
}

// By entry, the lives that it touched, so that a moment can name what it made.
function changesByEntry(history) {
  const changes = new Map();
  const add = (entry, life) => changes.set(entry, [...(changes.get(entry) || []), life]);
  for (const life of [...history.nodes, ...history.services, ...history.tasks]) {
    for (const point of life.points) add(point.entry, life);
    if (life.gone !== Infinity) add(life.gone, life);
  }
  return changes;
}

// A name that held at a moment, or the last one that was known before.
function nameOf(life, entry) {
  const place = Math.max(0, rightOfEntry(life.points, entry) - 1);
  return life.points[place].name;
}

function nodeName(history, id, entry) {
  if (id === null || id === undefined) return "–";
  const life = history.node.get(id);
  return life ? nameOf(life, entry) : String(id);
}

const grouped = (number) => number.toLocaleString("en", { maximumFractionDigits: 3 }).replace(/,/g, "\u202f");

// All clocks of a journal in one unit.
function clockText(history, ms) {
  return history.clock[history.count] < 10000 ? `${ms} ms` : `${grouped(ms / 1000)} s`;
}
