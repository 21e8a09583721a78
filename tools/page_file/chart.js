// The lanes on a canvas: only what can be seen is drawn.

const SCRIPT = 58; // the height of the lines of the script above the lanes
const SCRIPT_ROWS = 3;
const END = 5; // the width of the block at which a task ends

class Chart {
  constructor(history, listeners) {
    this.history = history;
    this.listeners = listeners;
    this.frame = document.getElementById("chart");
    this.canvas = document.querySelector("#stage canvas");
    this.context = this.canvas.getContext("2d");
    this.transform = d3.zoomIdentity;
    this.asked = false;
    this.frame.addEventListener("scroll", () => this.ask());
    this.listen();
  }

  // Another view: lanes and axis anew, at the present size of the window.
  show(lanes, axis) {
    if (lanes !== this.kind) this.layout = layoutOf(this.history, lanes);
    this.kind = lanes;
    this.axisKind = axis;
    this.resize();
  }

  resize() {
    const { frame } = this;
    const whole = this.layout.height + SCRIPT;
    document.getElementById("tall").style.height = `${whole}px`;
    frame.style.flexBasis = `${whole + 2}px`;
    frame.style.maxHeight = `${Math.max(160, Math.round(window.innerHeight * 0.52))}px`;
    this.width = frame.clientWidth;
    this.height = Math.min(frame.clientHeight, whole);
    document.getElementById("stage").style.height = `${this.height}px`;
    this.ratio = window.devicePixelRatio || 1;
    this.canvas.width = Math.round(this.width * this.ratio);
    this.canvas.height = Math.round(this.height * this.ratio);
    this.whole = axisOf(this.history, this.axisKind, this.width);
    this.axis = zoomed(this.whole, this.transform);
    const most = Math.max(1, (this.whole.end / Math.max(1, this.width)) * 60);
    this.zoom.scaleExtent([1, most]).extent([[LABELS + INSET, 0], [this.width - RIGHT, 1]])
      .translateExtent([[LABELS + INSET, 0], [this.width - RIGHT, 1]]);
    d3.select(this.canvas).call(this.zoom.transform, this.transform);
  }

  ask() {
    if (this.asked) return;
    this.asked = true;
    requestAnimationFrame(() => this.draw());
  }

  listen() {
    // the wheel alone goes up and down through the lanes
    this.zoom = d3.zoom().clickDistance(4).on("zoom", (event) => {
      this.transform = (event && event.transform) || d3.event.transform;
      this.ask();
    }).filter((event) => {
      const by = event && event.type ? event : d3.event;
      return by.type === "wheel" ? by.ctrlKey : !by.button;
    });
    d3.select(this.canvas).call(this.zoom).on("dblclick.zoom", null);
    this.canvas.addEventListener("mousemove", (event) => this.listeners.hover(this.at(event), event));
    this.canvas.addEventListener("mouseleave", (event) => this.listeners.hover(undefined, event));
    this.canvas.addEventListener("click", (event) => this.listeners.click(this.at(event)));
  }

  // Scrolls to the lane that fits, or to its track, where it can't be seen.
  reveal(fits, life) {
    const { frame, layout } = this;
    const lane = layout.lanes.filter(fits).pop();
    if (!lane) return;
    const track = lane.tracks.findIndex((bars) => bars.some((bar) => bar.life === life));
    const [top, height] = track < 0 ? [lane.top, lane.height] : [trackTop(layout, lane, track), layout.size.track];
    const seen = this.height - SCRIPT;
    if (top < frame.scrollTop || top + Math.min(height, seen) > frame.scrollTop + seen) {
      frame.scrollTop = Math.max(0, top - (track < 0 ? 0 : seen / 2));
    }
  }

  revealLane(life) {
    this.reveal((lane) => lane.life === life);
  }

  revealTask(life) {
    const has = (lane) => lane.tracks.some((bars) => bars.some((bar) => bar.life === life));
    const onNode = (lane) => lane.kind !== "waiting" && has(lane);
    this.reveal(this.layout.lanes.some(onNode) ? onNode : has, life);
  }

  zoomBy(factor) {
    const canvas = d3.select(this.canvas);
    if (factor) canvas.call(this.zoom.scaleBy, factor, [xOfMoment(this.axis, this.entry), 0]);
    else canvas.call(this.zoom.transform, d3.zoomIdentity);
  }

  draw() {
    this.asked = false;
    this.axis = zoomed(this.whole, this.transform);
    drawRuler(this.axis, this.history);
    const { context, layout, frame } = this;
    context.setTransform(this.ratio, 0, 0, this.ratio, 0, 0);
    context.clearRect(0, 0, this.width, this.height);
    const [top, bottom] = [frame.scrollTop, frame.scrollTop + this.height - SCRIPT];
    context.save();
    context.translate(0, SCRIPT - top);
    const seen = layout.lanes.filter((lane) => lane.top + lane.height > top && lane.top < bottom);
    seen.forEach((lane) => this.drawLane(lane, top, bottom));
    context.restore();
    this.drawScript();
    this.drawCursor();
  }

  clipToPlot(top, height) {
    this.context.beginPath();
    this.context.rect(LABELS, top, this.width - LABELS, height);
    this.context.clip();
  }

  drawLane(lane, from, to) {
    const { context, width } = this;
    context.fillStyle = INK;
    context.font = `600 12px ${FONT}`;
    context.textBaseline = "middle";
    // the name stays in sight as long as its lane does
    const middle = Math.min(Math.max(lane.top, from) + 12, lane.top + lane.height - 8);
    context.fillText(shortened(context, lane.name, LABELS - 20), 10, middle);
    context.save();
    this.clipToPlot(lane.top, lane.height);
    lane.bands.forEach((band) => this.drawBand(lane, band));
    this.drawClockLines(lane.top, lane.height);
    this.drawTracks(lane, from, to);
    lane.bands.forEach((band) => this.drawBandText(lane, band));
    const head = lane.top + lane.head / 2 + 1;
    lane.marks.forEach((mark) => drawMark(context, mark.kind, xOf(this.axis, mark.entry), head));
    context.restore();
    context.fillStyle = "#d5dbe1";
    context.fillRect(0, lane.top + lane.height - 1, width, 1);
  }

  // On an axis by entry, a faint line where the clock goes on; left out where they would be a grey ground.
  drawClockLines(top, height) {
    const { axis, history, context } = this;
    if (axis.byClock || axis.scale(2) - axis.scale(1) < 3) return;
    context.fillStyle = "#e9edf0";
    const [from, to] = [entryAt(axis, history, LABELS), entryAt(axis, history, this.width)];
    for (let entry = Math.max(2, from); entry <= to; entry += 1) {
      const goesOn = history.clock[entry] > history.clock[entry - 1];
      if (goesOn) context.fillRect(Math.round(xOf(axis, entry)), top, 1, height);
    }
  }

  drawBand(lane, band) {
    const colour = BANDS[band.state] || (band.desired && "#f6f1e4");
    if (!colour || lane.kind !== "node") return;
    const from = xOf(this.axis, band.from);
    this.context.fillStyle = colour;
    this.context.fillRect(from, lane.top, this.end(band.to) - from, lane.height - 1);
  }

  drawBandText(lane, band) {
    if (!this.layout.size.text) return;
    const { context, axis } = this;
    // a mark may stand where the band begins
    const from = Math.max(LABELS, xOf(axis, band.from)) + 9;
    context.font = `500 10.5px ${FONT}`;
    const text = fittingText(context, [band.text], this.roomInHead(lane, band, from));
    context.fillStyle = band.state === "DOWN" || /PAUSED/.test(band.text) ? ALARM : SOFT;
    if (text) context.fillText(text, from, lane.top + lane.head / 2 + 1.5);
  }

  // Up to the next mark or the band's end.
  roomInHead(lane, band, from) {
    const next = lane.marks.find((mark) => mark.entry > band.from && xOf(this.axis, mark.entry) > from);
    return Math.min(this.end(band.to), next ? xOf(this.axis, next.entry) - 7 : Infinity) - from;
  }

  end(entry) {
    return xOf(this.axis, Math.min(entry, this.history.count + 1));
  }

  // Those between two heights.
  drawTracks(lane, from, to) {
    const trackAt = (height) => (height - lane.top - lane.head) / this.layout.size.track;
    const [first, last] = [Math.max(0, Math.floor(trackAt(from))), Math.ceil(trackAt(to))];
    lane.tracks.slice(first, last).forEach((bars, i) => this.drawTrack(lane, bars, first + i));
  }

  drawTrack(lane, bars, track) {
    const top = trackTop(this.layout, lane, track);
    bars.forEach((bar, i) => {
      const [from, to] = this.spanOf(bar);
      if (to < LABELS || from > this.width) return;
      this.drawBar(bar, top);
      if (this.layout.size.text) this.drawLabel(lane, bar, bars[i + 1], top);
    });
  }

  // From where to where a bar is drawn; however short it was, it can be seen.
  spanOf(bar) {
    const from = xOf(this.axis, bar.from);
    return [from, Math.max(this.end(bar.shownTo), from + 3)];
  }

  drawBar(bar, top) {
    const { context, layout } = this;
    const height = layout.size.track - 2;
    const [left, right] = this.spanOf(bar);
    const ended = bar.stretches.find((stretch) => hasEnded(stretch.point));
    for (const stretch of bar.stretches) {
      if (stretch.from >= bar.shownTo) break;
      const from = xOf(this.axis, stretch.from);
      const to = Math.min(right, Math.max(this.end(Math.min(stretch.to, bar.shownTo)), left + 3));
      context.fillStyle = COLOURS[stretch.point.state];
      // what has ended is a block, whatever its time, with a thin tail for as long as its row stays
      if (stretch === ended) context.fillRect(from, top, END, height);
      if (to <= from) continue;
      if (hasEnded(stretch.point)) {
        context.fillRect(from, top + height / 2 - 1, to - from, 2);
        continue;
      }
      context.fillRect(from, top, to - from, height);
      if (isStopping(stretch.point)) {
        context.fillStyle = stripesOf(context);
        context.fillRect(from, top, to - from, height);
      }
    }
    this.frameBar(bar, ended, left, top);
  }

  frameBar(bar, ended, left, top) {
    const { context } = this;
    const chosen = bar.life === this.chosen;
    if (!chosen && !this.layout.size.text) return;
    const right = ended && ended.from < bar.shownTo ? xOf(this.axis, ended.from) + END : this.end(bar.shownTo);
    // around what is chosen, so that its colours stay in sight
    const outside = chosen ? 1 : -0.5;
    context.strokeStyle = chosen ? INK : "#1d273340";
    context.lineWidth = chosen ? 2 : 1;
    const [width, height] = [Math.max(right - left, 3), this.layout.size.track - 2];
    context.strokeRect(left - outside, top - outside, width + 2 * outside, height + 2 * outside);
  }

  labelsOf(lane, bar) {
    const { point } = bar.stretches[bar.stretches.length - 1];
    if (lane.kind === "waiting") {
      const note = bar.stretches.map((stretch) => stretch.point.note).filter((text) => text !== "-").pop();
      return note ? [`${point.name}: ${note}`, point.name] : [point.name];
    }
    if (lane.kind === "node") return [point.name];
    const where = point.node === null ? "" : ` on ${nodeName(this.history, point.node, bar.from)}`;
    return [`${point.name}${where}`, point.name];
  }

  // Within the bar; a task that waits says why beside it too, where nothing else stands.
  drawLabel(lane, bar, next, top) {
    const { context, axis } = this;
    const from = Math.max(LABELS, xOf(axis, bar.from)) + 5;
    const inside = this.end(Math.min(bar.activeTo, bar.shownTo)) - 4;
    const beyond = next ? xOf(axis, next.from) - 6 : this.width - 4;
    context.font = `11px ${FONT}`;
    context.fillStyle = INK;
    const room = (lane.kind === "waiting" ? beyond : inside) - from;
    const text = fittingText(context, this.labelsOf(lane, bar), room);
    if (text) context.fillText(text, from, top + this.layout.size.track / 2 - 0.5);
  }

  // Above the lanes: each line of the script that made something happen, and its text where there is room.
  drawScript() {
    const { context, history } = this;
    context.fillStyle = "#f5f7f9";
    context.fillRect(0, 0, this.width, SCRIPT - 1);
    context.fillStyle = INK;
    context.font = `600 12px ${FONT}`;
    context.textBaseline = "middle";
    context.fillText("script", 10, 12);
    context.save();
    this.clipToPlot(0, SCRIPT);
    context.font = `11px ${FONT}`;
    const free = new Array(SCRIPT_ROWS).fill(-Infinity);
    history.calls.forEach((entry, i) => this.drawCall(entry, i, free));
    context.restore();
    context.fillStyle = "#b6c0ca";
    context.fillRect(0, SCRIPT - 1, this.width, 1);
  }

  // Below all texts that reach as far, so that its line crosses none; where no row is left, the line alone.
  drawCall(entry, i, free) {
    const { context, history, axis } = this;
    const x = Math.round(xOf(axis, entry));
    if (x < LABELS - 260 || x > this.width) return;
    const next = history.calls[i + 1] ? xOf(axis, history.calls[i + 1]) : Infinity;
    const text = shortened(context, history.text[entry], Math.max(230, Math.min(next, this.width) - x - 12));
    const width = context.measureText(text).width;
    const isRight = x + width + 8 < this.width;
    const rows = d3.range(SCRIPT_ROWS);
    const row = isRight ? 1 + (d3.max(rows.filter((one) => free[one] > x)) ?? -1)
      : rows.findIndex((one) => free[one] <= x - width - 8);
    const hasRow = row >= 0 && row < SCRIPT_ROWS;
    context.fillStyle = history.reply(entry).startsWith("refused") ? ALARM : CALM;
    context.fillRect(x, hasRow ? 3 + 16 * row : SCRIPT - 7, 1, SCRIPT);
    if (!hasRow) return;
    free[row] = isRight ? x + width + 10 : x + 4;
    this.drawCallText(entry, text, isRight ? x + 4 : x - width - 4, width, row);
  }

  drawCallText(entry, text, from, width, row) {
    const { context, history } = this;
    context.fillStyle = "#f5f7f9";
    context.fillRect(from - 2, 3 + 16 * row, width + 4, 14);
    context.fillStyle = history.reply(entry).startsWith("refused") ? ALARM : INK;
    context.fillText(text, from, 10 + 16 * row);
  }

  drawCursor() {
    if (!this.axis || !this.entry) return;
    const x = xOfMoment(this.axis, this.entry);
    const cursor = document.getElementById("cursor");
    cursor.style.visibility = x < LABELS || x > this.width ? "hidden" : "visible";
    cursor.style.transform = `translateX(${x - 1}px)`;
  }

  // Where each bar stands on the canvas, with its stretches; for tests.
  bars() {
    const { layout, frame } = this;
    const placed = (lane, bar, track) => {
      const top = trackTop(layout, lane, track) + SCRIPT - frame.scrollTop;
      const stretches = bar.stretches.filter(({ from }) => from < bar.shownTo).map(({ point, from, to }) => {
        const [left, right] = [xOf(this.axis, from), this.end(Math.min(to, bar.shownTo))];
        return { state: point.state, from, to: to === Infinity ? null : to, left, right, stopping: isStopping(point) };
      });
      return { task: bar.life.id, lane: lane.name, top, height: layout.size.track - 2, stretches };
    };
    return layout.lanes.flatMap((lane) =>
      lane.tracks.flatMap((bars, track) => bars.map((bar) => placed(lane, bar, track))));
  }

  // What stands at a place of the canvas: a task's bar, a mark, a line of the script, or an entry alone.
  at(event) {
    const box = this.canvas.getBoundingClientRect();
    return this.found(event.clientX - box.left, event.clientY - box.top);
  }

  found(x, fromTop) {
    const { axis, history, layout } = this;
    if (x < LABELS) return undefined;
    const entry = entryAt(axis, history, x);
    if (fromTop < SCRIPT) return { entry, call: nearest(history.calls, (call) => Math.abs(xOf(axis, call) - x), 6) };
    const y = fromTop + this.frame.scrollTop - SCRIPT;
    const lane = layout.lanes.find((one) => y < one.top + one.height);
    if (!lane) return { entry };
    if (y < lane.top + lane.head) {
      return { entry, lane, mark: nearest(lane.marks, (mark) => Math.abs(xOf(axis, mark.entry) - x), 6) };
    }
    const track = lane.tracks[Math.floor((y - lane.top - lane.head) / layout.size.track)] || [];
    const bar = track.filter((one) => x >= this.spanOf(one)[0] && x <= this.spanOf(one)[1]).pop();
    return { entry, lane, bar };
  }
}

// The value that is nearest, if it is no farther than this.
function nearest(values, distance, most) {
  const least = d3.min(values, distance);
  return least <= most ? values.find((value) => distance(value) === least) : undefined;
}
