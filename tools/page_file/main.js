// What is shown, kept in the address too, so that a view can be handed on: lanes, axis, entry and task.

const history = readHistory(JSON.parse(document.getElementById("events").textContent));
const state = { lanes: "node", axis: "entry", entry: history.count, task: null };
const chart = new Chart(history, { hover: showTip, click });
const moment = new Moment(history, (task) => {
  update({ task: task.id });
  chart.revealTask(task);
}, (row) => chart.revealLane(row));
const life = new LifeOfTask(history, (entry) => update({ entry }));
const slider = document.getElementById("slider");

function readAddress() {
  const words = new URLSearchParams(location.hash.slice(1));
  const entry = Number(words.get("entry")) || history.count;
  return {
    lanes: words.get("lanes") === "service" ? "service" : "node",
    axis: words.get("axis") === "clock" ? "clock" : "entry",
    entry: Math.max(1, Math.min(history.count, Math.round(entry))),
    task: history.task.has(Number(words.get("task"))) ? Number(words.get("task")) : null,
  };
}

function writeAddress() {
  const words = Object.entries(state).filter(([, value]) => value !== null).map(([key, value]) => `${key}=${value}`);
  try {
    window.history.replaceState(null, "", `#${words.join("&")}`);
  } catch (error) {
    // an address that can't be changed, or not so often, only isn't kept
  }
}

let addressAsked;
function update(change) {
  const before = { ...state };
  Object.assign(state, change);
  const chosen = history.task.get(state.task);
  Object.assign(chart, { entry: state.entry, chosen });
  if (before.lanes !== state.lanes || before.axis !== state.axis || !chart.layout) {
    chart.show(state.lanes, state.axis);
    alignSlider();
  }
  if (before.task !== state.task) chart.ask();
  chart.drawCursor();
  slider.value = state.entry;
  moment.show(state.entry, chosen);
  life.show(chosen, state.entry);
  for (const name of ["lanes", "axis"]) document.querySelector(`#${name} [value=${state[name]}]`).checked = true;
  clearTimeout(addressAsked);
  addressAsked = setTimeout(writeAddress, 200);
}

// What the address says, with its task in sight.
function open() {
  update(readAddress());
  if (state.task !== null) chart.revealTask(history.task.get(state.task));
}

// Where all is shown, the slider's knob stands below the entry's place in the lanes.
function alignSlider() {
  const { axis } = chart;
  const [first, last] = axis.byClock ? axis.whole.range() : [axis.whole(1.5), axis.whole(history.count + 0.5)];
  const knob = 8;
  slider.style.marginLeft = `${first - LABELS - knob}px`;
  slider.style.width = `${Math.max(2 * knob, last - first + 2 * knob)}px`;
}

function click(found) {
  if (!found) return;
  if (found.bar) update({ task: found.bar.life.id });
  else update({ entry: found.call || (found.mark ? found.mark.entry : found.entry) });
}

// The step to another entry: the next one, or the next line of the script.
function stepped(step) {
  const { entry } = state;
  const place = d3.bisectLeft(history.calls, entry);
  const after = history.calls[d3.bisectRight(history.calls, entry)];
  const steps = { before: entry - 1, after: entry + 1, "call-before": history.calls[place - 1], "call-after": after };
  return Math.max(1, Math.min(history.count, steps[step] || entry));
}

function tipOf({ entry, bar, mark, call }) {
  const at = (when) => `entry ${when}, clock ${clockText(history, history.clock[when])}`;
  if (call) return `${history.text[call]}\n${history.reply(call).trimEnd()}\n${at(call)}`;
  if (mark) return `${MARKS[mark.kind].text}: ${history.text[mark.entry]}\n${at(mark.entry)}`;
  if (!bar) return "";
  const point = pointAt(bar.life, entry) || bar.stretches[0].point;
  const where = point.node === null ? "no node" : nodeName(history, point.node, entry);
  const note = point.note === "-" ? "" : `\n${point.note}`;
  return `task ${bar.life.id} ${point.name}, ${where}\n${point.state}, desired ${point.desired}${note}\n${at(entry)}`;
}

function showTip(found, event) {
  const tip = document.getElementById("tip");
  const text = found ? tipOf(found) : "";
  tip.hidden = !text;
  chart.canvas.style.cursor = text ? "pointer" : "default";
  if (!text) return;
  tip.textContent = text;
  const { offsetWidth: width, offsetHeight: height } = tip;
  tip.style.left = `${Math.min(event.clientX + 14, window.innerWidth - width - 8)}px`;
  const below = event.clientY + 18;
  tip.style.top = `${below + height > window.innerHeight ? event.clientY - height - 10 : below}px`;
}

// Only what comes in this journal stands in the legend.
function drawLegend() {
  const points = history.tasks.flatMap((task) => task.points);
  const states = new Set(points.map((point) => point.state));
  const items = TASK_STATES.filter((one) => states.has(one)).map((one) => [chip(COLOURS[one]), one]);
  if (points.some(isStopping)) items.push([chip(COLOURS.RUNNING, true), "is to stop"]);
  const kinds = new Set(history.marks.map((mark) => mark.kind));
  for (const kind of Object.keys(MARKS).filter((one) => kinds.has(one))) {
    const { path, fill = "none", stroke = "none", width = 1.6, text } = MARKS[kind];
    items.push([`<svg width="12" height="12" viewBox="-6 -6 12 12">` +
      `<path d="${path}" fill="${fill}" stroke="${stroke}" stroke-width="${width}"/></svg>`, text]);
  }
  d3.select("#legend").selectAll("li").data(items).join("li").html(([sign, text]) => `${sign}<span>${text}</span>`);
}

function drawSummary() {
  const counted = (count, word) => `${grouped(count)} ${word}${count === 1 ? "" : "s"}`;
  const { count, clock, nodes, services, tasks } = history;
  document.getElementById("summary").textContent = [count === 1 ? "1 entry" : counted(count, "entrie"),
    `clock to ${clockText(history, clock[count])}`, counted(nodes.length, "node"), counted(services.length, "service"),
    counted(tasks.length, "task")].join(", ");
}

function listen() {
  slider.max = history.count;
  let asked = false;
  slider.addEventListener("input", () => {
    // a knob that is drawn may move more often than anything can be seen
    if (!asked) requestAnimationFrame(() => {
      asked = false;
      update({ entry: Number(slider.value) });
    });
    asked = true;
  });
  for (const name of ["lanes", "axis"]) {
    document.getElementById(name).addEventListener("change", (event) => update({ [name]: event.target.value }));
  }
  document.getElementById("zoom").addEventListener("click", ({ target }) => {
    if (target.dataset.by) chart.zoomBy(Number(target.dataset.by));
  });
  document.getElementById("steps").addEventListener("click", ({ target }) => {
    if (target.dataset.step) update({ entry: stepped(target.dataset.step) });
  });
  window.addEventListener("resize", () => {
    chart.resize();
    alignSlider();
    update({});
  });
  window.addEventListener("hashchange", open);
}

drawSummary();
drawLegend();
listen();
open();
// for tests, and for people at the browser's console
window.page = { history, state, chart, moment, life, update };
