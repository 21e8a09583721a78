// The whole life of one task: each point with the entry that made it.

const LONG = 42; // letters of a cause that stand in one line

class LifeOfTask {
  constructor(history, go) {
    this.history = history;
    const section = d3.select("#life");
    this.section = section;
    this.heading = section.append("h2");
    this.hint = section.append("p").attr("class", "none");
    this.heads = section.append("div").attr("class", "row heads").html(
      ["entry", "clock", "state", "desired"].map((name) => `<span>${name}</span>`).join(""));
    this.rows = new Rows(section, (step) => this.contentOf(step), ({ entry }) => go(entry));
  }

  // The points of the life, then its end.
  stepsOf(life) {
    const steps = life.points.map((point) => ({ entry: point.entry, point }));
    return life.gone === Infinity ? steps : [...steps, { entry: life.gone }];
  }

  // What the entry was, and before it what became known: the node, why the task waits or why its place is closed.
  causeOf({ entry, point }) {
    const { history, life } = this;
    const before = pointAt(life, entry - 1);
    const reads = [history.text[entry]];
    if (point && point.node !== null && (!before || before.node !== point.node)) {
      reads.unshift(`on ${nodeName(history, point.node, entry)}`);
    }
    if (point && point.note !== "-" && (!before || before.note !== point.note)) reads.unshift(point.note);
    return reads.join(" · ");
  }

  contentOf({ entry, point, cause }) {
    const { history } = this;
    const state = point ? stateCell(point, COLOURS[point.state], isStopping(point)) : cell("gone", "muted");
    return { kind: this.isNow(entry) ? " chosen" : "", cells: cell(entry, "number") +
      cell(clockText(history, history.clock[entry])) + state + cell(point ? point.desired : "", "muted") +
      cell(cause, "cause muted") };
  }

  // The step that holds at the moment.
  isNow(entry) {
    const steps = this.steps.filter((step) => step.entry <= this.entry);
    return steps.length > 0 && steps[steps.length - 1].entry === entry;
  }

  show(life, entry) {
    this.life = life;
    this.entry = entry;
    this.steps = life ? this.stepsOf(life).map((step) => ({ ...step, cause: this.causeOf(step) })) : [];
    const isLong = this.steps.some(({ cause }) => cause.length > LONG);
    this.section.classed("long", isLong);
    this.rows.height = isLong ? 56 : 38;
    this.heading.html(life ? `life of task ${life.id} <span>${escaped(nameOf(life, entry))}</span>` : "life of a task");
    this.hint.text(life ? "" : "Click a bar or a row of the tasks.").style("display", life ? "none" : null);
    for (const part of [this.heads, this.rows.list]) part.style("display", life ? null : "none");
    this.rows.set(this.steps);
  }
}
