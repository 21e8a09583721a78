// Where an entry stands: the axis goes by entry, where the clock may stand still, or by clock.

const LABELS = 150; // the width of the lanes' names
const INSET = 10; // so that a mark at the beginning stands whole
const RIGHT = 14;

function axisOf(history, kind, width) {
  const last = history.clock[history.count];
  const byClock = kind === "clock";
  // the last state is seen for a moment after the last entry
  const end = byClock ? last + Math.max(1, last * 0.02) : history.count + 1;
  const plot = [LABELS + INSET, Math.max(LABELS + 2 * INSET, width - RIGHT)];
  const whole = d3.scaleLinear().domain([byClock ? 0 : 1, end]).range(plot);
  const at = (entry) => (entry > history.count ? end : byClock ? history.clock[entry] : entry);
  return { kind, end, whole, scale: whole, at, byClock };
}

const zoomed = (axis, transform) => ({ ...axis, scale: transform.rescaleX(axis.whole) });
const xOf = (axis, entry) => axis.scale(axis.at(entry));

// The middle of an entry's own place, where the moment after it is marked.
function xOfMoment(axis, entry) {
  return axis.byClock ? xOf(axis, entry) : axis.scale(entry + 0.5);
}

// The entry of which a place on the axis shows the state after it.
function entryAt(axis, history, x) {
  const value = axis.scale.invert(x);
  const entry = axis.byClock ? d3.bisectRight(history.clock, value) - 1 : Math.floor(value);
  return Math.max(1, Math.min(history.count, entry));
}

function ticksOf(axis, history) {
  const [from, to] = axis.scale.range();
  const wanted = Math.max(2, Math.floor((to - from) / 90));
  const values = axis.scale.ticks(wanted).filter((value) => Number.isInteger(value) && value < axis.end);
  return values.map((value) => {
    const entry = axis.byClock ? d3.bisectRight(history.clock, value) - 1 : value;
    return { value, entry, clock: axis.byClock ? value : history.clock[value] };
  });
}

// Two lines of figures: what the axis goes by, and below it what the other axis would say there.
function drawRuler(axis, history) {
  const svg = d3.select("#ruler svg");
  const names = axis.byClock ? ["clock", "entry"] : ["entry", "clock"];
  svg.selectAll("text.name").data(names).join("text").attr("class", "name").attr("x", LABELS - 10)
    .attr("text-anchor", "end").attr("y", (_, line) => 11 + 14 * line).text((name) => name);
  const group = svg.selectAll("g").data(ticksOf(axis, history), (tick) => tick.value).join((enter) => {
    const added = enter.append("g");
    added.append("text").attr("class", "first").attr("y", 11).attr("text-anchor", "middle");
    added.append("text").attr("class", "second").attr("y", 25).attr("text-anchor", "middle");
    added.append("line").attr("y1", 28).attr("y2", 34);
    return added;
  });
  const here = axis.byClock ? 0 : 0.5;
  group.attr("transform", (tick) => `translate(${axis.scale(tick.value + here)},0)`);
  const texts = [(tick) => clockText(history, tick.clock), (tick) => String(tick.entry)];
  group.select(".first").text(axis.byClock ? texts[0] : texts[1]);
  group.select(".second").text(axis.byClock ? texts[1] : texts[0]);
}
