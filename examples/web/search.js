// Places by what a visitor types: any name of theirs, what they are, in either language, with one typing mistake.
import { say, label, upper, wordsOf } from "./words.js";
import { site, placesOf } from "./store.js";
import { ALONG, iconOf, isPassage, levelName, noun } from "./names.js";

const $ = (id) => document.getElementById(id), LISTED = 40;
const ORDER = ["occupant", "amenity", "unit", "anchor", "opening"];
let all = [], byId = new Map();

export const fold = (text) => text.normalize("NFD").replace(/\p{M}/gu, "").replaceAll("ß", "ss").toLowerCase();
export const titleOfPlace = (it) => (it.title ??= label(it.name, site.language)?.text ?? it.guest ?? upper(noun(it)));
export const placeAt = (id) => byId.get(id);
export const titleAt = (id) => (byId.has(id) ? titleOfPlace(byId.get(id)) : "");

/** Makes what is searched, in the language that is spoken now. Who is in a room, or at an anchor, stands for it, unless it has another name. */
export async function indexPlaces() {
  const told = await placesOf(), atAnchor = new Map(), inRoom = new Map(), room = ({ level, unit }) => level * 2 ** 20 + unit;
  const nameOf = (it) => label(it.name, site.language)?.text, push = (map, key, name) => (map.has(key) ? map.get(key).push(name) : map.set(key, [name]));
  byId = told.byId;
  for (const it of told.all) if (it.type === "occupant") {
    push(atAnchor, it.node, nameOf(it) ?? upper(noun(it)));
    push(inRoom, room(it), nameOf(it) ?? upper(noun(it)));
  }
  const ranked = new Map();
  for (const it of told.all) {
    const isHall = it.type === "unit" && (ALONG.has(it.category) || isPassage(it)), its = it.type === "anchor" ? atAnchor.get(it.id) : it.type === "unit" && !isHall ? inRoom.get(room(it)) : null;
    [it.guest, it.title, it.found] = [its?.join(", ") ?? null, null, null];
    if (its && (!it.name || its.includes(nameOf(it)))) continue;
    it.rank = ORDER.indexOf(it.type) - (it.name ? 2.5 : 0) + (ALONG.has(it.category) && !it.name ? 3 : 0);
    push(ranked, it.rank, it);
  }
  all = [...ranked].sort(([one], [other]) => one - other).flatMap(([, places]) => places);
  (self.requestIdleCallback ?? setTimeout)(() => fillWords());
}

/** What is searched of each place: all its names, what it is in all languages, and its level. */
function fillWords() {
  for (const it of all) {
    it.found ??= fold([...Object.values(it.name ?? {}), ...Object.values(it.alt ?? {}), wordsOf(it.category), it.type === "occupant" ? wordsOf("occupant") : "", levelName(it.ordinal)].join(" "));
  }
}

/** Whether one letter more, less, exchanged or swapped with its neighbour makes of a word the beginning of the other. */
export function isNear(word, other) {
  let k = 0;
  while (k < word.length && word[k] === other[k]) k += 1;
  if (k === word.length) return true;
  const goesOn = (a, b) => other.startsWith(word.slice(k + a), k + b);
  return goesOn(1, 1) || goesOn(1, 0) || goesOn(0, 1) || (word[k] === other[k + 1] && word[k + 1] === other[k] && goesOn(2, 2));
}

/** The likeliest places for a text. Where none has all its words as they are, one mistake in each word of four letters or more is passed over. */
export function search(text) {
  fillWords();
  const words = fold(text).split(/\s+/).filter(Boolean), starts = (it) => (words.length && fold(titleOfPlace(it)).startsWith(words[0]) ? 0 : 1);
  const exact = all.filter(({ found }) => words.every((word) => found.includes(word)));
  const near = exact.length ? exact : all.filter(({ found }) => { const parts = found.split(" "); return words.every((word) => found.includes(word) || (word.length > 3 && parts.some((part) => isNear(word, part)))); });
  return words.length ? [...near].sort((one, other) => starts(one) - starts(other) || one.rank - other.rank) : near;
}

/** What tells a place of a list from others: its level, and where others there have the same name on it, what with a name is nearest. */
export function detailsOf(rows) {
  const same = new Map(), name = (it) => titleOfPlace(it);
  for (const it of rows) same.set(`${name(it)} ${it.level}`, (same.get(`${name(it)} ${it.level}`) ?? 0) + 1);
  return rows.map((it) => {
    const level = upper(levelName(it.ordinal));
    if (same.get(`${name(it)} ${it.level}`) < 2) return level;
    const off = ({ point: [x, y] }) => Math.hypot(x - it.point[0], y - it.point[1]);
    const near = all.reduce((best, other) => (other.level === it.level && name(other) !== name(it) && (other.name || !best?.name) && !(best && Boolean(best.name) === Boolean(other.name) && off(best) <= off(other)) ? other : best), null);
    return near ? `${level}, ${say("near", { name: name(near) })}` : level;
  });
}

/** A field in which a place is searched: the pattern of a combobox with a list. `chosen` has what the field has now, `choose` takes another. */
export function listenToField(key, { make, icon, chosen, choose }) {
  const input = $(key), options = $(`${key}-list`);
  let rows = [], at = -1;
  const move = (to) => {
    at = to;
    [...options.children].forEach((option, k) => option.setAttribute("aria-selected", String(k === at)));
    options.children[at]?.scrollIntoView({ block: "nearest" });
    input.setAttribute("aria-activedescendant", at < 0 ? "" : `${key}-${at}`);
  };
  const open = (isOpen) => { options.hidden = !isOpen; input.setAttribute("aria-expanded", String(isOpen)); move(-1); };
  const list = () => {
    const text = input.value === titleAt(chosen()) ? "" : input.value, found = search(text), note = (words) => make("li", { role: "option", "aria-disabled": "true" }, words);
    rows = found.slice(0, LISTED);
    const details = detailsOf(rows);
    const option = (it, k) => make("li", { role: "option", id: `${key}-${k}` }, icon(iconOf(it)), make("span", { lang: label(it.name, site.language)?.lang ?? null }, titleOfPlace(it)), make("small", {}, details[k]));
    const notes = !all.length ? [note(say("loading.places"))] : !rows.length ? [note(say("no.place"))] : found.length > LISTED ? [note(say("more.places", { n: LISTED }))] : [];
    options.replaceChildren(...rows.map(option), ...notes);
    open(true);
    if (rows.length && text) move(0);
  };
  const take = (row) => { if (row) { open(false); choose(row.id); } };
  input.addEventListener("input", list);
  input.addEventListener("click", () => { input.select(); if (options.hidden) list(); });
  input.addEventListener("blur", () => {
    open(false);
    if (!input.value.trim() && chosen()) choose(null);
    input.value = titleAt(chosen());
  });
  input.addEventListener("keydown", (event) => {
    const step = { ArrowDown: 1, ArrowUp: -1 }[event.key];
    if (step || event.key === "Enter") event.preventDefault();
    if (event.key === "Escape") open(false);
    else if (event.key === "Enter") take(options.hidden ? null : rows[at]);
    else if (step && options.hidden) list();
    else if (step && rows.length) move((at + step + rows.length) % rows.length);
  });
  options.addEventListener("pointerdown", (event) => event.preventDefault());
  options.addEventListener("click", ({ target }) => take(rows[[...options.children].indexOf(target.closest("li"))]));
}
