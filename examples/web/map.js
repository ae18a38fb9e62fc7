// The map: what of it is in view, how it is moved and zoomed, which level is shown, and what is tapped.
import { say, number } from "./words.js";
import { levelName, levelTitle, signed } from "./names.js";
import { site, levelOf, numbersOf } from "./store.js";
import { drawScene, marksOf, readColours } from "./draw.js";

const $ = (id) => document.getElementById(id);
const MOST_BUTTONS = 6, MOST_SCALE = 1.5; // pixels a centimetre
const NONE = { closed: [], reached: [], lines: [], marks: [] };
const canvas = $("view").appendChild(document.createElement("canvas"));
const view = { x: 0, y: 0, scale: 1 }; // the point in the middle, in centimetres, and how many pixels a centimetre has
export const shown = { ordinal: null, levels: [], marks: [], news: NONE, drawn: null };
let newsOf = () => NONE, waits = 0, turn = 0;

const size = () => [$("view").clientWidth || 1, $("view").clientHeight || 1];
export const ordinals = () => [...new Set(site.levels.map(({ ordinal }) => ordinal))].sort((a, b) => b - a);
const boxOf = (boxes) => boxes.reduce(([a, b, c, d], [e, f, g, h]) => [Math.min(a, e), Math.min(b, f), Math.max(c, g), Math.max(d, h)], [Infinity, Infinity, -Infinity, -Infinity]);
const bounds = () => boxOf(site.levels.map((level) => level.bounds));

// ---- Drawing

/** Shows what `view` says, once for all that changes it before the next picture. */
export function look() {
  waits ||= requestAnimationFrame(() => {
    waits = 0;
    draw();
  });
}

function draw() {
  if (!site.levels.length) return;
  const [width, height] = size(), dense = Math.min(2, devicePixelRatio || 1), [a, b, c, d] = bounds();
  [view.x, view.y] = [Math.min(c, Math.max(a, view.x)), Math.min(d, Math.max(b, view.y))];
  if (canvas.width !== Math.round(width * dense) || canvas.height !== Math.round(height * dense)) Object.assign(canvas, { width: Math.round(width * dense), height: Math.round(height * dense) });
  const context = canvas.getContext("2d", { alpha: false });
  context.setTransform(dense, 0, 0, dense, 0, 0);
  shown.drawn = drawScene(context, [width, height], view, shown);
  if (!shown.drawn.isWhole) look();
  const { units, doors, lines, closed, reached, texts } = shown.drawn;
  Object.assign($("view").dataset, { level: shown.ordinal, units, doors, lines, closed, reached, texts: texts.length });
  const bar = [1, 2, 5, 10, 20, 50, 100, 200, 500].find((length) => length * 100 * view.scale >= 40) ?? 1000;
  $("scale").textContent = say("metres", { n: number(bar) });
  $("scale").style.width = `${bar * 100 * view.scale}px`;
}

/** A picture of a level of its own, as for print: of the part in this box. */
export async function pictureOf(ordinal, box, [width, height]) {
  const levels = await Promise.all(numbersOf(ordinal).map(levelOf)), paper = Object.assign(document.createElement("canvas"), { width: width * 2, height: height * 2 });
  const context = paper.getContext("2d"), marks = marksOf(levels.flatMap(({ features }) => features));
  context.setTransform(2, 0, 0, 2, 0, 0);
  document.documentElement.classList.add("paper");
  readColours();
  while (!drawScene(context, [width, height], viewOf(box, [width, height], 0.6), { levels, marks, news: newsOf(ordinal, levels) }).isWhole);
  document.documentElement.classList.remove("paper");
  readColours();
  return Object.assign(paper, { className: "paper", ariaLabel: levelTitle(ordinal) });
}

function viewOf([a, b, c, d], pixels, most) {
  const room = pixels.map((length) => Math.max(20, length - (length < 500 ? 40 : 88)));
  return { x: (a + c) / 2, y: (b + d) / 2, scale: Math.min(most, room[0] / Math.max(c - a, 10), room[1] / Math.max(d - b, 10)) };
}

export function fit(box = bounds(), most = 0.6) {
  Object.assign(view, viewOf(box, size(), most));
  look();
}

/** Zooms so that what is at this point of the view stays there. */
function zoom(factor, x = size()[0] / 2, y = size()[1] / 2) {
  const [a, b, c, d] = bounds(), before = view.scale;
  view.scale = Math.min(MOST_SCALE, Math.max(120 / Math.max(c - a, d - b), before * factor));
  view.x += (x - size()[0] / 2) * (1 / before - 1 / view.scale);
  view.y += (y - size()[1] / 2) * (1 / before - 1 / view.scale);
  look();
}

/** Takes anew what stands on the level beside the plan: what is closed, what can be reached, a way. */
export function drawNews() {
  shown.news = newsOf(shown.ordinal, shown.levels);
  look();
}

/** Draws all anew, as with other colours or another language. */
export function drawAnew() {
  readColours();
  shown.marks = marksOf(shown.levels.flatMap(({ features }) => features));
  canvas.setAttribute("role", "img");
  canvas.setAttribute("aria-label", shown.ordinal === null ? "" : say("map.of", { level: signed(shown.ordinal) }));
  drawNews();
}

// ---- Levels

/** Shows the levels of this ordinal, once they are there. */
export async function showLevel(ordinal) {
  const numbers = numbersOf(ordinal), mine = (turn += 1);
  if (!numbers.length) return;
  if (shown.ordinal === ordinal) return drawNews();
  tellLevel(ordinal, say("loading.level", { level: signed(ordinal) }));
  const levels = await Promise.all(numbers.map(levelOf)).catch((trouble) => { if (mine === turn) tellLevel(shown.ordinal ?? ordinal); throw trouble; });
  if (mine !== turn) return;
  Object.assign(shown, { ordinal, levels });
  tellLevel(ordinal);
  drawAnew();
}

function tellLevel(ordinal, text = levelTitle(ordinal)) {
  $("caption").textContent = text;
  $("card").hidden = true;
  for (const button of $("levels").querySelectorAll("[data-ordinal]")) {
    const isChosen = Number(button.dataset.ordinal) === ordinal;
    button.setAttribute("aria-pressed", String(isChosen));
    if (isChosen) $("levels").scrollLeft = button.offsetLeft - ($("levels").clientWidth - button.offsetWidth) / 2;
  }
  const choice = $("levels").querySelector("select"), at = ordinals().indexOf(ordinal);
  if (choice) {
    choice.value = String(ordinal);
    for (const [name, isEnd] of [["up", at === 0], ["down", at === ordinals().length - 1]]) $("levels").querySelector(`[data-step=${name}]`).disabled = isEnd;
  }
}

/** The chooser of levels: a button for each of a few, else a list with a button up and one down. */
export function drawLevels(make, icon, show) {
  const all = ordinals(), button = (attributes, ...children) => make("button", { type: "button", ...attributes }, ...children);
  const step = (by) => show(all[all.indexOf(Number($("levels").querySelector("select").value)) + by]);
  $("map").classList.toggle("many", all.length > MOST_BUTTONS);
  $("levels").replaceChildren(...(all.length <= MOST_BUTTONS
    ? [...all].reverse().map((ordinal) => button({ "data-ordinal": ordinal, "aria-label": levelTitle(ordinal), click: () => show(ordinal) }, signed(ordinal)))
    : [button({ "data-step": "down", "aria-label": say("level.down"), click: () => step(1) }, icon("down")),
      make("select", { "aria-label": say("levels"), change: ({ target }) => show(Number(target.value)) }, ...all.map((ordinal) => make("option", { value: ordinal }, levelTitle(ordinal)))),
      button({ "data-step": "up", "aria-label": say("level.up"), click: () => step(-1) }, icon("up"))]));
  if (shown.ordinal !== null) tellLevel(shown.ordinal);
}

// ---- Gestures

/** `tells` is what stands beside the plan of a level, `tapped` is called with the feature that is tapped, or null. */
export function listenToMap(tells, tapped) {
  newsOf = tells;
  readColours();
  const fingers = new Map(), keys = { ArrowLeft: [-60, 0], ArrowRight: [60, 0], ArrowUp: [0, -60], ArrowDown: [0, 60], "+": "in", "=": "in", "-": "out", 0: "fit" };
  const at = ({ clientX, clientY }) => { const box = $("view").getBoundingClientRect(); return [clientX - box.left, clientY - box.top]; };
  const spread = ([[a, b], [c, d] = [a, b]]) => ({ x: (a + c) / 2, y: (b + d) / 2, apart: Math.hypot(a - c, b - d) });
  const act = (what) => (what === "fit" ? fit() : zoom(what === "in" ? 1.5 : 1 / 1.5));
  let travelled = 0;
  $("view").addEventListener("pointerdown", (event) => {
    if (!fingers.size) travelled = 0;
    fingers.set(event.pointerId, at(event));
    $("view").setPointerCapture(event.pointerId);
  });
  $("view").addEventListener("pointermove", (event) => {
    if (!fingers.has(event.pointerId)) return;
    const before = spread([...fingers.values()]), now = spread([...fingers.set(event.pointerId, at(event)).values()]);
    travelled += Math.hypot(now.x - before.x, now.y - before.y) + Math.abs(now.apart - before.apart);
    [view.x, view.y] = [view.x - (now.x - before.x) / view.scale, view.y - (now.y - before.y) / view.scale];
    zoom(before.apart ? now.apart / before.apart : 1, now.x, now.y);
  });
  for (const end of ["pointerup", "pointercancel"]) $("view").addEventListener(end, (event) => {
    if (fingers.delete(event.pointerId) && end === "pointerup" && !fingers.size && travelled < 8) tapped(featureAt(...at(event)));
  });
  $("view").addEventListener("wheel", (event) => { event.preventDefault(); zoom(Math.exp(-event.deltaY / 400), ...at(event)); }, { passive: false });
  $("view").addEventListener("keydown", (event) => {
    const what = event.ctrlKey || event.metaKey || event.altKey ? undefined : keys[event.key];
    if (what === undefined) return;
    event.preventDefault();
    if (typeof what === "string") return act(what);
    [view.x, view.y] = [view.x + what[0] / view.scale, view.y + what[1] / view.scale];
    look();
  });
  $("zoom").addEventListener("click", ({ target }) => { const button = target.closest("button"); if (button) act(button.dataset.zoom); });
  new ResizeObserver(look).observe($("view"));
  for (const query of ["(prefers-color-scheme: dark)", "(forced-colors: active)"]) matchMedia(query).addEventListener("change", drawAnew);
}

/** What is at this point of the view: a mark, else a door close by, else the smallest unit round it. */
function featureAt(x, y) {
  const [width, height] = size(), point = [view.x + (x - width / 2) / view.scale, view.y + (y - height / 2) / view.scale];
  const mark = shown.drawn?.marks.find((it) => Math.hypot(it.x - x, it.y - y) < 16);
  if (mark) return mark.it;
  const all = shown.levels.flatMap(({ features }) => features), off = ({ point: [a, b] }) => Math.hypot(a - point[0], b - point[1]) * view.scale;
  const door = all.filter((it) => it.type === "opening" && off(it) < 10).sort((one, other) => off(one) - off(other))[0];
  const area = ({ box: [a, b, c, d] }) => (c - a) * (d - b);
  return door ?? all.filter((it) => it.type === "unit" && isInside(it.rings, point)).sort((one, other) => area(one) - area(other))[0] ?? null;
}

function isInside(rings, [x, y]) {
  let isIn = false;
  for (const ring of rings) for (let k = 2; k < ring.length; k += 2) {
    const [a, b, c, d] = [ring[k - 2], ring[k - 1], ring[k], ring[k + 1]];
    if (b > y !== d > y && x < a + ((y - b) / (d - b)) * (c - a)) isIn = !isIn;
  }
  return isIn;
}
