// One moment: the state after an entry. What the entry was, what it made, and all rows as they are then.

const ROW = 22;

// A list that has elements only for the rows that can be seen, and touches those alone whose content is another.
class Rows {
  constructor(section, contentOf, click, height = ROW) {
    Object.assign(this, { contentOf, click, height, rows: [] });
    this.list = section.append("div").attr("class", "list");
    this.all = this.list.append("div").attr("class", "all");
    this.list.on("scroll", () => this.draw());
  }

  set(rows) {
    const whole = `${rows.length * this.height}px`;
    if (this.whole !== whole) this.all.style("height", whole);
    this.whole = whole;
    this.rows = rows;
    this.draw();
  }

  draw() {
    const { height, click } = this;
    const frame = this.list.node();
    const first = Math.max(0, Math.floor(frame.scrollTop / height) - 2);
    const seen = this.rows.slice(first, first + Math.ceil(frame.clientHeight / height) + 4)
      .map((row, i) => ({ row, top: `${(first + i) * height}px`, content: this.contentOf(row) }));
    this.all.selectAll("button").data(seen).join((enter) => enter.append("button").attr("type", "button")
      .each(function made() { this.onclick = () => click(d3.select(this).datum().row); }))
      .each(function one({ top, content: { kind, cells } }) {
        if (this.style.top !== top) this.style.top = top;
        if (this.className !== `row${kind}`) this.className = `row${kind}`;
        if (this.shown !== cells) this.innerHTML = cells;
        this.shown = cells;
      });
  }
}

function chip(colour, stopping = false) {
  return `<i class="chip${stopping ? " stopping" : ""}" style="background-color:${colour}"></i>`;
}

const TEXT_OF = { "&": "&amp;", "<": "&lt;", ">": "&gt;", '"': "&quot;" };
const escaped = (text) => String(text).replace(/[&<>"]/g, (sign) => TEXT_OF[sign]);
const cell = (text, kind = "") => `<span class="${kind}" title="${escaped(text)}">${escaped(text)}</span>`;
const stateCell = (point, colour, stopping) =>
  `<span class="state">${chip(colour, stopping)}${escaped(point.state)}</span>`;

// All rows of a kind that are there after an entry, each with whether this entry changed it.
function rowsAt(history, lives, entry) {
  const changed = new Set(history.changes.get(entry) || []);
  return lives.map((life) => ({ life, point: pointAt(life, entry), changed: changed.has(life) }))
    .filter((row) => row.point);
}

// Tasks without a node that may still get one, counted by what keeps them.
function waitingAt(rows) {
  const waiting = rows.filter(({ point }) => point.node === null && !hasEnded(point) && !isStopping(point));
  const noteOf = ({ point }) => (point.note === "-" ? `${point.state}, no reason noted yet` : point.note);
  const counts = [...groupedBy(waiting, noteOf)].map(([note, { length }]) => ({ note, count: length }));
  return counts.sort((a, b) => b.count - a.count);
}

function madeBy(history, entry) {
  const lives = history.changes.get(entry) || [];
  const one = (life) => {
    const name = `${life.kind} ${life.id} ${nameOf(life, entry - 1)}`;
    const [before, after] = [pointAt(life, entry - 1), pointAt(life, entry)];
    if (!after) return `${name} goes`;
    const parts = SHOWN[life.kind].filter((key) => key !== "name" && (!before || before[key] !== after[key]));
    const shown = (point, key) => (key === "node" ? nodeName(history, point.node, entry) : point[key]);
    const changes = parts.filter((key) => before || (after[key] !== null && after[key] !== "-"))
      .map((key) => (before ? `${key} ${shown(before, key)} → ${shown(after, key)}` : `${key} ${shown(after, key)}`));
    return `${name}${before ? "" : " comes"}${changes.length ? `: ${changes.join(", ")}` : ""}`;
  };
  const most = 6;
  const texts = lives.slice(0, most).map(one);
  return lives.length > most ? [...texts, `and ${lives.length - most} more`] : texts;
}

// How many tasks are in which state, the highest state first.
function countsOf(kind, rows) {
  if (kind !== "tasks" || !rows.length) return "";
  const byState = groupedBy(rows, ({ point }) => point.state);
  const states = TASK_STATES.filter((state) => byState.has(state)).reverse();
  return `: ${states.map((state) => `${byState.get(state).length} ${state}`).join(", ")}`;
}

class Moment {
  constructor(history, choose, reveal) {
    this.history = history;
    const heading = (section) => section.append("h2");
    const heads = (section, names) => section.append("div").attr("class", "row heads")
      .html(names.map((name) => `<span>${name}</span>`).join(""));
    const nodes = d3.select("#nodes");
    const services = d3.select("#services");
    const tasks = d3.select("#tasks");
    this.headings = [nodes, services, tasks].map(heading);
    this.waits = tasks.append("ul").attr("class", "waits");
    heads(nodes, ["id", "node", "state", "availability"]);
    heads(services, ["id", "service", "running", "update"]);
    heads(tasks, ["id", "task", "state", "desired", "node, note"]);
    this.lists = [
      new Rows(nodes, (row) => this.nodeContent(row), ({ life }) => reveal(life)),
      new Rows(services, (row) => this.serviceContent(row), ({ life }) => reveal(life)),
      new Rows(tasks, (row) => this.taskContent(row), ({ life }) => choose(life)),
    ];
  }

  kindOf({ life, changed }) {
    return `${changed ? " changed" : ""}${life === this.chosen ? " chosen" : ""}`;
  }

  nodeContent(row) {
    const { life, point } = row;
    return { kind: this.kindOf(row), cells: cell(life.id, "number") + cell(point.name) +
      stateCell(point, STATE_WORDS[point.state]) + cell(point.desired, "muted") };
  }

  serviceContent(row) {
    const { life, point, running } = row;
    return { kind: this.kindOf(row), cells: cell(life.id, "number") + cell(point.name) + cell(running) +
      cell(point.state, "muted") };
  }

  taskContent(row) {
    const { life, point } = row;
    const node = point.node === null ? "" : nodeName(this.history, point.node, this.entry);
    const where = [node, point.note === "-" ? "" : point.note].filter(Boolean).join(", ") || "–";
    return { kind: this.kindOf(row), cells: cell(life.id, "number") + cell(point.name) +
      stateCell(point, COLOURS[point.state], isStopping(point)) + cell(point.desired, "muted") + cell(where) };
  }

  show(entry, chosen) {
    const { history } = this;
    this.entry = entry;
    this.chosen = chosen;
    this.rows = { nodes: rowsAt(history, history.nodes, entry), tasks: rowsAt(history, history.tasks, entry) };
    const running = groupedBy(this.rows.tasks.filter(({ point }) => point.state === "RUNNING" && !isStopping(point)),
      ({ life }) => life.service);
    this.rows.services = rowsAt(history, history.services, entry)
      .map((row) => ({ ...row, running: (running.get(row.life.id) || []).length }));
    ["nodes", "services", "tasks"].forEach((kind, i) => {
      const rows = this.rows[kind];
      this.headings[i].html(`${kind} <span>${rows.length}${countsOf(kind, rows)}</span>`);
      this.lists[i].set(rows);
    });
    this.showWaiting();
    this.showEntry();
  }

  showWaiting() {
    this.waiting = waitingAt(this.rows.tasks);
    this.waits.selectAll("li").data(this.waiting).join("li")
      .html(({ note, count }) => `<b>${count}</b> ${count === 1 ? "waits" : "wait"} for a node: ${escaped(note)}`);
  }

  showEntry() {
    const { history, entry } = this;
    const by = history.caller[entry] ? `, worker ${history.caller[entry]}` : "";
    const reply = history.reply(entry).trimEnd().split("\n");
    const lines = reply.length > 1 ? `${reply[0]} (and ${reply.length - 1} lines)` : reply[0];
    const made = madeBy(history, entry);
    const clock = clockText(history, history.clock[entry]);
    d3.select("#entry").html(
      `<span class="where">entry ${entry} of ${history.count}, clock ${clock}${by}</span>` +
      `<code>${escaped(history.text[entry])}</code><span class="reply" title="${escaped(reply.join("\n"))}">` +
      `${lines ? `→ ${escaped(lines)}` : ""}</span>` +
      `<span class="made">${made.length ? escaped(made.join("; ")) : "no row changes"}</span>`);
  }
}
