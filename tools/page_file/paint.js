// Colours and shapes. The colours stay apart for people who can't tell red from green.

const COLOURS = {
  NEW: "#e3e6e9", PENDING: "#f3e2a0", ASSIGNED: "#e4eff8", ACCEPTED: "#d2e5f3", PREPARING: "#bbd8ed", READY: "#a3cae6",
  STARTING: "#84b7dc", RUNNING: "#549cd0", COMPLETE: "#2fa184", SHUTDOWN: "#a9b0b7", FAILED: "#d8601a",
  REJECTED: "#c978a8", REMOVE: "#7d8894", ORPHANED: "#6a4c93",
};
const STATE_WORDS = { UNKNOWN: "#c4cad0", DOWN: "#d8601a", DISCONNECTED: "#d8601a", READY: "#549cd0" };
const BANDS = { DOWN: "#fbe9df", DISCONNECTED: "#fbe9df", UNKNOWN: "#f1f3f5", GONE: "#e9ecef" };
const INK = "#1d2733";
const SOFT = "#5c6875";
const ALARM = "#b8430a";
const CALM = "#17517e";
const FONT = '"Inter", "Segoe UI", "Helvetica Neue", "Noto Sans", "DejaVu Sans", sans-serif';

// A mark is a path around (0, 0), stroked or filled, so that shape tells it and not colour alone.
const MARKS = {
  session: { path: "M-4,3.5L4,3.5L0,-4Z", fill: CALM, text: "session begins" },
  expire: { path: "M-4,-3.5L4,-3.5L0,4Z", fill: "#ffffff", stroke: ALARM, text: "session runs out" },
  fail: { path: "M-3.5,-3.5L3.5,3.5M-3.5,3.5L3.5,-3.5", stroke: ALARM, width: 2.4, text: "node or agent fails" },
  back: { path: "M-3.5,0A3.5,3.5,0,1,0,3.5,0A3.5,3.5,0,1,0,-3.5,0", fill: "#ffffff", stroke: CALM, text: "is back" },
};
for (const mark of Object.values(MARKS)) mark.shape = new Path2D(mark.path);

function drawMark(context, kind, x, y) {
  const mark = MARKS[kind];
  context.save();
  context.translate(Math.round(x) + 0.5, y);
  context.lineWidth = mark.width || 1.6;
  if (mark.fill) {
    context.fillStyle = mark.fill;
    context.fill(mark.shape);
  }
  if (mark.stroke) {
    context.strokeStyle = mark.stroke;
    context.stroke(mark.shape);
  }
  context.restore();
}

// Stripes over what runs and is to stop.
let stripes;
function stripesOf(context) {
  if (stripes) return stripes;
  const tile = document.createElement("canvas");
  tile.width = tile.height = 8;
  const brush = tile.getContext("2d");
  brush.lineWidth = 1.6;
  for (const [width, colour] of [[4, "#ffffff90"], [1.6, "#1d273399"]]) {
    brush.strokeStyle = colour;
    brush.lineWidth = width;
    brush.beginPath();
    for (const shift of [-8, 0, 8]) {
      brush.moveTo(shift - 2, 10);
      brush.lineTo(shift + 10, -2);
    }
    brush.stroke();
  }
  stripes = context.createPattern(tile, "repeat");
  return stripes;
}

function fittingText(context, texts, room) {
  return texts.find((text) => context.measureText(text).width <= room);
}

// The longest beginning of a text that has room, with a mark that it goes on.
function shortened(context, text, room) {
  if (context.measureText(text).width <= room) return text;
  const fits = (length) => context.measureText(`${text.slice(0, length)}…`).width <= room;
  const length = d3.bisector((one) => !fits(one)).left(d3.range(1, text.length), true);
  return `${text.slice(0, Math.max(1, length))}…`;
}
