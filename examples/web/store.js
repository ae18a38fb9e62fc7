// What is fetched: the files of the site, a level at a time, the parts of the tables, and the server's replies.
import { readNodes, readPart, readRow, partsOf } from "./check.js";
import { say } from "./words.js";

const PATIENCE = 15_000, TRIES = 3, MOST_FEATURES = 40_000, KEPT = "kept";
const REFUSALS = new Set(["no_such_place", "no_such_profile", "want_of_memory", "version_ahead"]);

/** Something that went wrong, as the key of the sentence that the visitor reads. */
export class Trouble extends Error {
  constructor(key, values = {}) {
    super(key);
    Object.assign(this, { key, values });
  }
}
export const sentence = (trouble) => (trouble instanceof Trouble ? say(trouble.key, trouble.values) : say("unread"));

/** What `site.py` says of the venue, and what was fetched of it. */
export const site = { mark: "", levels: [], profiles: [] };
export const features = new Map(); // those of the levels that are held, by identifier
export const server = { version: 0, ahead: 0, closures: { version: 0, closures: [] }, heard: null };
const levels = new Map(), walls = new Map(), fetched = new Set();
let nodes = null, parts = new Map(), passages = null, places = null;

async function get(path, cache = "default") {
  try {
    const reply = await fetch(path, { cache, signal: AbortSignal.timeout(PATIENCE) });
    return { status: reply.status, text: await reply.text() };
  } catch {
    throw new Trouble("silent");
  }
}

function parsed(text, key, values) {
  try {
    const value = JSON.parse(text);
    if (value && typeof value === "object") return value;
  } catch { /* told by the sentence */ }
  throw new Trouble(key, values);
}

/** A file of this publication. */
async function read(name) {
  const path = `data/${site.mark}/${name}`, { status, text } = await get(path);
  if (status !== 200) return null;
  fetched.add(path);
  return text;
}
const readJson = async (name) => parsed((await read(name)) ?? "", "file.unread", { name });

/** Begins anew with these settings of the site: nothing of an earlier publication is held any more. */
export function takeSite(told) {
  Object.assign(site, told);
  for (const held of [features, levels, walls, fetched, parts]) held.clear();
  [nodes, passages, places] = [null, null, null];
}

/** The settings of the site as they are now. */
export async function readSite() {
  const { status, text } = await get("site.json", "no-cache"), told = parsed(status === 200 ? text : "", "site.unread");
  if (!(told.kx > 0 && told.ky > 0 && told.mark && [told.profiles, told.levels].every((it) => Array.isArray(it) && it.length))) throw new Trouble("site.unread");
  return told;
}

// ---- Levels

const boxOf = (rings) => rings.reduce(([a, b, c, d], ring) => {
  for (let k = 0; k < ring.length; k += 2) [a, b, c, d] = [Math.min(a, ring[k]), Math.min(b, ring[k + 1]), Math.max(c, ring[k]), Math.max(d, ring[k + 1])];
  return [a, b, c, d];
}, [Infinity, Infinity, -Infinity, -Infinity]);

async function fetchLevel(number) {
  const told = await readJson(`level/${number}.json`), { ordinal } = site.levels[number];
  if (!Array.isArray(told.features) || !Array.isArray(told.rings)) throw new Trouble("file.unread", { name: `level/${number}.json` });
  const its = told.features;
  for (const it of its) {
    Object.assign(it, { level: number, ordinal });
    for (const key of ["unit", "anchor"]) if (key in it) it[key] = its[it[key]];
    if (it.rooms) it.rooms = it.rooms.map((place) => its[place]);
    if (it.rings) it.rings = it.rings.map((ring) => Int32Array.from(ring));
    if (it.rings ?? it.line) it.box = boxOf(it.rings ?? [it.line]);
    features.set(it.id, it);
  }
  for (const it of its) if (it.type === "occupant") for (const host of new Set([it.anchor, it.unit])) (host.guests ??= []).push(it);
  for (const it of its) for (const room of it.rooms ?? []) (room.doors ??= []).push(it);
  return { number, ordinal, rings: told.rings.map((ring) => Int32Array.from(ring)), features: its };
}

/** A level with its features. Those that were looked at longest ago are let go. */
export function levelOf(number) {
  const known = levels.get(number) ?? fetchLevel(number).catch((trouble) => { levels.delete(number); throw trouble; });
  levels.delete(number);
  levels.set(number, known);
  known.then((level) => { known.features = level.features; letGo(); }, () => null);
  return known;
}

function letGo() {
  const held = [...levels].filter(([, { features: its }]) => its);
  let count = held.reduce((sum, [, { features: its }]) => sum + its.length, 0);
  for (const [number, { features: its }] of held.slice(0, -1)) {
    if (count <= MOST_FEATURES) return;
    count -= its.length;
    levels.delete(number);
    for (const { id } of its) features.delete(id);
  }
}

export const numbersOf = (ordinal) => site.levels.flatMap((level, number) => (level.ordinal === ordinal ? [number] : []));

/** All passages by their identifiers. */
export async function passagesOf() {
  passages ??= readJson("passages.json").then((list) => new Map(list.map((it) => [it.id, { ...it, type: "relationship" }])));
  for (const [id, it] of await passages) if (!features.has(id)) features.set(id, it);
}

/** Has the features with these identifiers there: the levels of those that are nodes, and the passages. */
export async function featuresOf(ids) {
  if (!ids.length) return;
  const { numbers, partOf } = await nodesOf().catch(() => ({ numbers: new Map() }));
  await Promise.all([...new Set(ids.filter((id) => numbers.has(id)).map((id) => partOf[numbers.get(id)]))].map(levelOf));
  await passagesOf();
}

/** The places that can be searched for, as objects, and by their identifiers. */
export async function placesOf() {
  places ??= readJson("places.json").then((rows) => {
    const all = rows.map(([id, type, category, level, x, y, name, alt, unit, node]) => ({ id, type, category, level, ordinal: site.levels[level].ordinal, point: [x, y], name, alt, unit, node: node ?? id }));
    return { all, byId: new Map(all.map((it) => [it.id, it])) };
  }).catch((trouble) => { places = null; throw trouble; });
  return places;
}

/** The outlines of the units of a level that have corners, by identifier: the rings of their polygons in whole nanodegrees. */
export function wallsOf(number) {
  if (!walls.has(number)) walls.set(number, readJson(`walls/${number}.json`).catch((trouble) => { walls.delete(number); throw trouble; }));
  return walls.get(number);
}

// ---- The tables of links

/** The levels of nodes, by the list of nodes. */
export async function nodesOf() {
  nodes ??= read("links/parts.txt").then((text) => {
    if (text === null) throw new Trouble("table.missing");
    const found = readNodes(text);
    if (found.stop) throw new Trouble(found.stop === "form parts.txt 1" ? "table.version" : "table.unread", { stop: found.stop });
    if (found.mark !== site.mark) throw new Trouble("table.mark");
    return found;
  }).catch((trouble) => { nodes = null; throw trouble; });
  return nodes;
}

async function fetchPart(profile, name, table) {
  const text = await read(`links/${profile}/${name}.txt`);
  if (text === null) throw new Trouble("table.missing");
  const part = readPart(text, table, name);
  if (part.stop?.startsWith("mark")) throw new Trouble("table.mark");
  if (part.stop) throw new Trouble(part.stop.endsWith(" 1") ? "table.version" : "table.unread", { stop: part.stop });
  return part;
}

/** The nodes, and the parts of a profile's table that the judging of a reply needs. */
export async function tableFor(profile, reply) {
  const table = await nodesOf(), names = ["between", ...partsOf(reply, table)];
  if (parts.profile !== profile) parts = Object.assign(new Map(), { profile });
  const its = parts;
  for (const name of names) if (!its.has(name)) its.set(name, fetchPart(profile, name, table).catch((trouble) => { its.delete(name); throw trouble; }));
  return { table, parts: new Map(await Promise.all(names.map(async (name) => [name, await its.get(name)]))) };
}

// ---- The server

/** A reply of the server, no older than the newest that it gave, with a list of this name where one is wanted. */
export async function ask(path, keys = {}, list = null) {
  const { status, text } = await get(`${path}?${new URLSearchParams({ ...keys, since: server.version })}`, "no-cache");
  if (status >= 500 && !text.startsWith("{")) throw new Trouble("silent");
  const body = parsed(text, "reply.json");
  server.ahead = body.error === "version_ahead" ? server.ahead + 1 : 0;
  if (server.ahead > TRIES) server.version = server.ahead = 0; // Its history has begun anew, so ours does too.
  if (status !== 200) throw REFUSALS.has(body.error) ? new Trouble(body.error) : new Trouble("refused", { status });
  if (!Number.isSafeInteger(body.version)) throw new Trouble("reply.version");
  if (list && !Array.isArray(body[list])) throw new Trouble("reply.list", { list });
  server.version = Math.max(server.version, body.version);
  return body;
}

/** The rows of what is closed that are of the form. Where one isn't, no answer is proved, and the page says so. */
export const closedRows = ({ closures }) => closures.map(readRow).filter(Boolean);

/** Whether the server's places are those of this site, by their identifiers. */
export async function isOfSite() {
  const [{ byId }, table, told] = await Promise.all([placesOf(), nodesOf(), ask("/v1/places", {}, "places")]);
  return told.places.length === site.places && told.places.every(({ id, kind }) => (kind === "occupant" ? byId.has(id) : table.numbers.has(id)));
}

// ---- What is there without a network

/** Keeps the last way that was judged, and the files by which it was, so that the page shows it where nothing answers. */
export async function keep(way) {
  if (!("caches" in self)) return;
  const store = await caches.open(KEPT), known = new Set((await store.keys()).map(({ url }) => url));
  for (const url of known) if (url.includes("/data/") && !url.includes(`/data/${site.mark}/`)) await store.delete(url);
  const missing = ["site.json", ...fetched].filter((path) => path === "site.json" || !known.has(new URL(path, location.href).href));
  await Promise.all(missing.map((path) => store.add(path).catch(() => null)));
  await store.put("last-way.json", new Response(JSON.stringify(way)));
}

export async function kept() {
  const found = "caches" in self ? await (await caches.open(KEPT)).match("last-way.json") : null;
  return found ? found.json() : null;
}
