// Draws a level into a canvas: rooms and doors, what is closed or can be reached, a way, and as many marks as find room.
import { upper } from "./words.js";
import { SOLID, ALONG, isPassage, iconOf, labelOf, noun } from "./names.js";

const LOOKS = { walkway: "walk", platform: "walk", lobby: "walk", elevator: "lift", stairs: "treads", steps: "treads", escalator: "treads", ramp: "treads", movingwalkway: "treads", restroom: "wet" };
export const lookOf = ({ category }) => (SOLID.has(category) ? "solid" : LOOKS[category] ?? "room");
const FONT = "-apple-system, 'Segoe UI', Roboto, 'Helvetica Neue', Arial, sans-serif", CELL = 6, MANY = 300, MOST_STAMPS = 600, PER_TEXT = 8_000, AT_ONCE = 12; // pixels, milliseconds

// ---- Colours and pictures

const FILLS = ["sheet", "ground", "room", "walk", "lift", "treads", "wet", "solid", "shut", "reach", "door", "way-edge", "halo", "mark-ink"];
const LINES = ["ground-line", "room-line", "walk-line", "lift-line", "treads-line", "wet-line", "solid-line", "shut-line", "reach-line", "picked", "text", "area", "shop", "mark"];
let colours = {};
/** Reads the colours of the style sheet as they are now, or where the system has its own, those. */
export function readColours() {
  const probe = document.body.appendChild(document.createElement("i")), isForced = matchMedia("(forced-colors: active)").matches;
  const own = (name) => (FILLS.includes(name) ? "Canvas" : LINES.includes(name) ? "CanvasText" : "Highlight");
  colours = Object.fromEntries([...FILLS, ...LINES, "way", "from", "to"].map((name) => {
    probe.style.color = isForced ? own(name) : `var(--${name})`;
    return [name, getComputedStyle(probe).color];
  }));
  probe.remove();
  patterns.clear();
  stamps.clear();
}

const patterns = new Map();
/** A pattern that has the same size at every zoom: hatched, dotted, or with treads. */
function patternOf(context, look) {
  if (!patterns.has(look)) {
    const tile = Object.assign(document.createElement("canvas"), { width: 8, height: 8 }), pen = tile.getContext("2d");
    pen.fillStyle = colours[look];
    pen.fillRect(0, 0, 8, 8);
    pen.strokeStyle = pen.fillStyle = colours[`${look}-line`];
    pen.lineWidth = look === "shut" ? 1.8 : 1;
    pen.beginPath();
    if (look === "shut") for (const [x, y] of [[-2, 2], [-2, 10], [6, 10]]) { pen.moveTo(x, y); pen.lineTo(x + 8 - (x ? 4 : 0), y - 8 + (x ? 4 : 0)); }
    if (look === "shut") { pen.moveTo(-1, 9); pen.lineTo(9, -1); }
    if (look === "treads") for (const y of [2, 6]) { pen.moveTo(0, y); pen.lineTo(8, y); }
    pen.stroke();
    if (look === "reach") { pen.arc(4, 4, 1.2, 0, 7); pen.fill(); }
    patterns.set(look, context.createPattern(tile, "repeat"));
  }
  return patterns.get(look);
}

const icons = new Map();
export async function readIcons() {
  const reply = await fetch("icons.svg").catch(() => null), text = reply?.ok ? await reply.text() : "<svg/>";
  for (const symbol of new DOMParser().parseFromString(text, "image/svg+xml").querySelectorAll("symbol")) {
    const drawn = { stroke: new Path2D(), fill: new Path2D() };
    for (const part of symbol.children) {
      const of = (name) => Number(part.getAttribute(name)), path = part.localName === "path" ? new Path2D(part.getAttribute("d")) : new Path2D();
      if (part.localName === "circle") path.arc(of("cx"), of("cy"), of("r"), 0, 7);
      drawn[part.getAttribute("stroke") === "none" ? "fill" : "stroke"].addPath(path);
    }
    icons.set(symbol.id, drawn);
  }
}

// ---- Marks

const pen = document.createElement("canvas").getContext("2d");
const widths = new Map();
function widthOf(text) {
  pen.font = `600 13px ${FONT}`;
  if (!widths.has(text)) widths.set(text, pen.measureText(text).width + 4);
  return widths.get(text);
}

/** What could be marked of a level's features, the likeliest first; the lower its rank, the sooner a mark is given room. */
export function marksOf(features) {
  const marks = features.filter(({ type, category }) => ["occupant", "amenity", "unit"].includes(type) && !SOLID.has(category)).map((it) => {
    const isRoom = it.type === "unit" && !isPassage(it) && it.category !== "restroom", name = labelOf(it)?.text;
    const text = name ?? (isRoom && !ALONG.has(it.category) ? "" : upper(noun(it)));
    if (isRoom && (!text || it.guests)) return null;
    return { it, point: it.point, picture: isRoom ? null : iconOf(it), text, rank: it.type === "unit" ? (isRoom ? 6 : name ? 4 : 5) : 3, look: it.type === "occupant" ? "shop" : isRoom ? "area" : "mark" };
  });
  return marks.filter(Boolean).sort((one, other) => one.rank - other.rank);
}

/** What of the view is taken, in squares of a few pixels. */
class Room {
  constructor(width, height) {
    [this.wide, this.high] = [Math.ceil(width / CELL) + 1, Math.ceil(height / CELL) + 1];
    this.taken = new Uint8Array(this.wide * this.high);
  }

  /** Whether no square of this box is taken; with `takes` they then are. */
  isFree([a, b, c, d], takes = false) {
    const left = Math.max(0, Math.floor(a / CELL)), right = Math.min(this.wide - 1, Math.floor(c / CELL)), last = Math.min(this.high - 1, Math.floor(d / CELL));
    for (let y = Math.max(0, Math.floor(b / CELL)); y <= last; y += 1) for (let k = y * this.wide + left; k <= y * this.wide + right; k += 1) {
      if (takes) this.taken[k] = 1;
      else if (this.taken[k]) return false;
    }
    return true;
  }

  take(box) { this.isFree(box, true); }
}

// ---- Drawing

/** Adds rings or a line to the path, leaving out what lies within so many pixels of the point before it. */
function trace(context, rings, { x, y, scale, left, top, grain }, isClosed) {
  for (const ring of rings) {
    let [u, v] = [(ring[0] - x) * scale + left, (ring[1] - y) * scale + top];
    context.moveTo(u, v);
    for (let k = 2; k < ring.length; k += 2) {
      const p = (ring[k] - x) * scale + left, q = (ring[k + 1] - y) * scale + top;
      if (Math.abs(p - u) + Math.abs(q - v) < grain && k < ring.length - 2) continue;
      context.lineTo(p, q);
      [u, v] = [p, q];
    }
    if (isClosed) context.closePath();
  }
}

/** Draws levels of one ordinal, and returns what marks can be tapped and how much was drawn. `view` has the point in the middle and the pixels of a
    centimetre, `news` what is closed and reached, the lines of a way and further marks. */
export function drawScene(context, [width, height], view, { levels, marks, news }) {
  const frame = { ...view, left: width / 2, top: height / 2, grain: 1 }, at = (x, y) => [(x - view.x) * view.scale + width / 2, (y - view.y) * view.scale + height / 2];
  const seen = [view.x - width / 2 / view.scale, view.y - height / 2 / view.scale, view.x + width / 2 / view.scale, view.y + height / 2 / view.scale];
  const pixels = ([a, b, c, d]) => Math.max(c - a, d - b) * view.scale, isSeen = (box, least) => box[0] < seen[2] && box[2] > seen[0] && box[1] < seen[3] && box[3] > seen[1] && pixels(box) > least;
  const count = { marks: [], texts: [], isWhole: true };
  readyBy = performance.now() + AT_ONCE;
  [context.lineJoin, context.lineCap] = ["bevel", "butt"];
  context.fillStyle = colours.sheet;
  context.fillRect(0, 0, width, height);
  const shape = (it, look, line = 1.6) => {
    context.beginPath();
    trace(context, it.rings, frame, true);
    context.fillStyle = ["treads", "shut", "reach"].includes(look) ? patternOf(context, look) : colours[look];
    context.fill("evenodd");
    context.strokeStyle = colours[`${look}-line`];
    context.lineWidth = line;
    context.stroke();
  };
  // Of a room of a few pixels no more is seen than its box, and the gap to the next one.
  const box = ({ box: [a, b, c, d] }, look) => {
    const [x, y] = at(a, b);
    context.fillStyle = colours[look];
    context.fillRect(x + 0.4, y + 0.4, Math.max(1, (c - a) * view.scale - 0.8), Math.max(1, (d - b) * view.scale - 0.8));
  };
  const strokes = (list, colour, line) => {
    context.beginPath();
    for (const points of list) trace(context, [points], frame, false);
    context.strokeStyle = colour;
    context.lineWidth = line;
    context.stroke();
  };
  for (const level of levels) shape(level, "ground", 1.5);
  const units = levels.flatMap(({ features }) => features.filter((it) => it.type === "unit" && isSeen(it.box, 1.5))), isMany = units.length > MANY;
  // The more rooms are in view the coarser their walls.
  frame.grain = isMany ? 4 : units.length > MANY / 3 ? 2.5 : 1;
  for (const it of units) {
    if (pixels(it.box) < (isMany ? 20 : 10)) box(it, lookOf(it));
    else shape(it, lookOf(it), units.length > MANY / 3 && pixels(it.box) < 150 ? 1 : 1.6);
  }
  frame.grain = 1;
  const reached = news.reached.filter((it) => isSeen(it.box, 1)), doors = levels.flatMap(({ features }) => features.filter((it) => it.type === "opening" && isSeen(it.box, 3)));
  for (const it of reached) pixels(it.box) < 14 ? box(it, "reach-line") : shape(it, "reach");
  for (const it of news.closed) if (it.rings) shape(it, "shut");
  [context.lineJoin, context.lineCap] = ["round", "round"];
  strokes(doors.map((it) => it.line), colours.door, Math.min(5, 500 * view.scale));
  strokes(news.closed.filter((it) => it.line).map((it) => it.line), colours["shut-line"], 7);
  strokes(news.lines.map(({ points }) => points), colours["way-edge"], 10);
  strokes(news.lines.map(({ points }) => points), colours.way, 6);
  strokes(news.lines.filter(({ isPicked }) => isPicked).map(({ points }) => points), colours.picked, 8);
  Object.assign(count, { units: units.length, doors: doors.length, reached: reached.length, closed: news.closed.length, lines: news.lines.length });

  const room = new Room(width, height), shown = [];
  for (const { points } of news.lines) for (let n = 2; n < points.length; n += 2) for (let k = 0; k <= 32; k += 1) {
    const [a, b, c, d] = points.slice(n - 2, n + 2), [x, y] = at(a + ((c - a) * k) / 32, b + ((d - b) * k) / 32);
    room.take([x - 5, y - 5, x + 5, y + 5]);
  }
  // Seen from afar, many marks keep further apart.
  const apart = view.scale < 0.02 && marks.length > MANY ? 22 : 0;
  for (const mark of [...news.marks, ...marks]) {
    const x = (mark.point[0] - view.x) * view.scale + width / 2, y = (mark.point[1] - view.y) * view.scale + height / 2, radius = mark.picture ? 13 : 0, own = radius + apart;
    if (x < -50 || y < -50 || x > width + 50 || y > height + 50 || (radius && mark.rank > 1 && !room.isFree([x - own, y - own, x + own, y + own]))) continue;
    if (radius) room.take([x - radius, y - radius, x + radius, y + radius]);
    shown.push({ ...mark, x, y, radius });
  }
  for (const mark of shown) if (mark.radius) picture(context, mark);
  const most = (width * height) / PER_TEXT;
  for (const mark of shown) {
    if (!mark.text || (count.texts.length > most && mark.rank > 0)) continue;
    const { x, y, radius } = mark, wide = widthOf(mark.text), spots = radius ? [[-wide / 2, radius + 2], [radius + 3, -8], [-radius - 3 - wide, -8], [-wide / 2, -radius - 18]] : [[-wide / 2, -8]];
    const boxes = spots.map(([left, top]) => [x + left, y + top, x + left + wide, y + top + 16]);
    const box = boxes.find((it) => it[0] > 2 && it[2] < width - 2 && room.isFree(it)) ?? (mark.rank === 0 ? boxes[0] : null);
    if (!box) continue;
    room.take(box);
    count.isWhole &= stamp(context, `${mark.look} ${mark.text}`, [box[0], box[1], wide + 4, 18], (pen) => {
      pen.font = `${mark.look === "area" ? 500 : 600} 13px ${FONT}`;
      [pen.lineWidth, pen.lineJoin, pen.strokeStyle] = [3.5, "round", colours.halo];
      pen.fillStyle = colours[{ area: "area", shop: "shop", from: "picked", turn: "picked", to: "shut-line", shut: "shut-line" }[mark.look] ?? "text"];
      pen.strokeText(mark.text, 2, 12.5);
      pen.fillText(mark.text, 2, 12.5);
    });
    count.texts.push(mark.text);
  }
  count.marks = shown.filter(({ it, radius }) => it && radius).map(({ it, x, y, radius }) => ({ it, x, y, radius }));
  return count;
}

const stamps = new Map();
let readyBy = 0;
/** Draws what is drawn often and is costly, as a text with its halo, from a picture that was drawn once. Whether it is there: where much is new, the rest
    comes with the next picture. */
function stamp(context, name, [x, y, width, height], draws) {
  const dense = context.getTransform().a, key = `${name} ${dense}`;
  if (!stamps.has(key)) {
    if (performance.now() > readyBy) return false;
    if (stamps.size > MOST_STAMPS) stamps.clear();
    const paper = Object.assign(document.createElement("canvas"), { width: Math.ceil(width * dense), height: Math.ceil(height * dense) }), pen = paper.getContext("2d");
    pen.scale(dense, dense);
    draws(pen);
    stamps.set(key, paper);
  }
  const paper = stamps.get(key), whole = (value) => Math.round(value * dense) / dense;
  context.drawImage(paper, whole(x), whole(y), paper.width / dense, paper.height / dense);
  return true;
}

function picture(context, { x, y, look, picture: name }) {
  const isRound = ["shop", "from", "to", "shut"].includes(look), drawn = icons.get(name);
  stamp(context, `${look} ${name} icon`, [x - 14, y - 14, 28, 28], (pen) => {
    pen.fillStyle = colours[{ shop: "shop", from: "from", turn: "from", to: "to", shut: "to" }[look] ?? "mark"];
    [pen.strokeStyle, pen.lineWidth, pen.lineCap, pen.lineJoin] = [colours.halo, 1.5, "round", "round"];
    pen.beginPath();
    if (isRound) pen.arc(14, 14, 12, 0, 7);
    else pen.roundRect(2, 2, 24, 24, 6);
    pen.fill();
    pen.stroke();
    if (!drawn) return;
    pen.translate(5, 5);
    pen.scale(0.75, 0.75);
    [pen.strokeStyle, pen.fillStyle, pen.lineWidth] = [colours["mark-ink"], colours["mark-ink"], 2.4];
    pen.stroke(drawn.stroke);
    pen.fill(drawn.fill);
  });
}
