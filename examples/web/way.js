// A way as a line and in words: where it bends, which of its legs are one step, which way one turns, what one passes, and how far it is as people say it.
import { say, number, list, upper } from "./words.js";
import { features, site, wallsOf } from "./store.js";
import { ALONG, isPassage, nameOf, theOf, titleOf, toOf, signed, noun } from "./names.js";

const PACE = 7_000, BEND = 30, BACK = 150, NEAR = 600, LONG = 800, LEAST = 50; // centimetres a minute, degrees, centimetres
const WHOLE = 2 ** 53; // sums and products of whole numbers are exact below it

/** A length as people say it: the longer, the rounder. */
export function spokenLength(cost) {
  const metres = cost / 100, to = metres < 10 ? 1 : metres < 100 ? 5 : 10;
  return metres < 1000 ? say("metres", { n: number(Math.max(1, Math.round(metres / to) * to)) }) : say("kilometres", { n: number(metres / 1000, 1) });
}
export const exactLength = (cost) => say("metres", { n: number(cost / 100, 2) });

export function spokenTime(cost) {
  const n = Math.round(cost / PACE);
  return n ? say("minutes", { n }) : say("minutes.less");
}

// ---- Corners, where one turns who walks round a wall in a unit, from docs/FORMATS.md alone ("Rooms with walls")

/** The sign of the sum of what triples of points turn by, above 0 where that is counterclockwise. Whole numbers of any length are taken where rounding may
    have changed it, and only there. */
function turnOf(triples) {
  let sum = 0, size = 0;
  for (const [[a, b], [c, d], [e, f]] of triples) {
    const left = (c - a) * (f - b), right = (d - b) * (e - a);
    sum += left - right;
    size += Math.abs(left) + Math.abs(right);
  }
  if (size < WHOLE || Math.abs(sum) > (triples.length + 2) * Number.EPSILON * size) return Math.sign(sum);
  const whole = triples.reduce((total, [[a, b], [c, d], [e, f]]) => total + BigInt(c - a) * BigInt(f - b) - BigInt(d - b) * BigInt(e - a), 0n);
  return whole > 0n ? 1 : whole < 0n ? -1 : 0;
}

/** Of a closed ring, from its first position on, equal neighbours being one: where it turns against the way that it runs, of a hole where it turns that way. */
function ringCorners(ring, isHole) {
  const points = [];
  for (let k = 0; k < ring.length; k += 2) if (!k || ring[k] !== ring[k - 2] || ring[k + 1] !== ring[k - 1]) points.push([ring[k], ring[k + 1]]);
  const last = points.length - 1, runs = turnOf(points.slice(1, -1).map((point, k) => [points[0], point, points[k + 2]])) * (isHole ? -1 : 1);
  return points.slice(0, last).filter((point, k) => turnOf([[points[(k || last) - 1], point, points[k + 1]]]) * runs < 0);
}

/** The corners of a unit in their order, as [east, north]. It is told as its polygons, each its border and then its holes, each the closed ring of its positions in
    whole nanodegrees: the first east, the first north, the second east and so on. */
export const cornersOf = (polygons) => polygons.flatMap((rings) => rings.flatMap((ring, k) => ringCorners(ring, k > 0)));

/** The corners of a unit on the map, in their order: those of its outline, where they are as many as the table of links has; else null. */
export async function bendsOf(id, { numbers, corners, partOf }) {
  try {
    const found = cornersOf((await wallsOf(partOf[numbers.get(id)]))[id]);
    return found.length === corners.get(id).length ? found.map(([east, north]) => [Math.round((east / 1e9) * site.kx), Math.round((-north / 1e9) * site.ky)]) : null;
  } catch {
    return null; // There is no such outline, or it isn't of its form.
  }
}

// ---- Legs and steps

/** The legs of a reply from place to place with what is known of them; `ordinalOf` has the ordinal of each node. Steps that meet at a corner are one leg, across the unit
    of which that is a corner: it has the numbers of its `corners`, and in `bends` is to come where they are. */
export function legsOf({ start, steps }, ordinalOf) {
  const legs = [];
  let from = start, corners = [], walked = 0;
  for (const { to, corner, via, cost } of steps) {
    walked += cost;
    if (corner) corners.push(corner);
    else {
      legs.push({ from, to, via, cost: walked, passage: features.get(via)?.type === "relationship" ? features.get(via).category : null, levels: [from, to].map(ordinalOf), corners, bends: [] });
      [from, corners, walked] = [to, [], 0];
    }
  }
  return legs;
}

/** The points of a leg on the map, bent at its corners, or null where an end isn't held. */
export function lineOf({ from, to, bends }) {
  const ends = [from, to].map((id) => features.get(id));
  return ends.every(Boolean) ? [ends[0].point, ...bends, ends[1].point] : null;
}

/** What of a leg's cost is counted for its passage, beyond what is walked. */
export function countedOf({ passage, cost }) {
  const extra = passage ? site.extras?.[passage] : 0;
  return Number.isSafeInteger(extra) && extra > 0 && extra <= cost ? extra : 0;
}

/** The steps of a way: the legs of one ride are one, with those inside the lift before and after, each other leg is one. */
export function stepsOf(legs) {
  const steps = [];
  const kindOf = (leg) => leg.passage ?? (isPassage(features.get(leg.via)) ? features.get(leg.via).category : null);
  legs.forEach((leg, k) => {
    const last = steps.at(-1), kind = kindOf(leg)?.replace(/^steps$/, "stairs") ?? null;
    const goesOn = last && kind && kind === last.kind && (last.isRide || leg.passage || legs[k + 1]?.passage);
    if (goesOn) last.legs.push(leg);
    else steps.push({ kind, isRide: false, legs: [leg] });
    if (leg.passage) steps.at(-1).isRide = true;
  });
  return steps.map((step, number) => ({ ...step, number, from: step.legs[0].from, to: step.legs.at(-1).to, levels: [step.legs[0].levels[0], step.legs.at(-1).levels[1]],
    cost: step.legs.reduce((sum, { cost }) => sum + cost, 0), counted: step.legs.reduce((sum, leg) => sum + countedOf(leg), 0) }));
}

/** The direction in which a line sets out, in degrees, or null where it is too short to have one. */
function direction([[a, b], ...rest]) {
  const far = rest.find(([c, d]) => Math.hypot(c - a, d - b) >= LEAST);
  return far ? (Math.atan2(far[1] - b, far[0] - a) * 180) / Math.PI : null;
}

/** Which way one turns between two legs that follow one another, as the key of a sentence, or null. The map has north above. */
export function turnBetween(before, leg) {
  const [came, goes] = [before, leg].map((it) => (it && !it.passage ? lineOf(it) : null)), back = came && direction([...came].reverse()), on = goes && direction(goes);
  if (back === null || on === null) return null;
  const by = ((on - back + 360) % 360) - 180;
  return Math.abs(by) <= BEND ? null : Math.abs(by) >= BACK ? "back" : by > 0 ? "right" : "left";
}

/** The names of at most two things along a leg: rooms whose doors one passes, and who is in the hall itself. */
export function passedOn(leg) {
  const [via, from, to] = [leg.via, leg.from, leg.to].map((id) => features.get(id)), line = lineOf(leg), found = new Map();
  if (via?.type !== "unit" || !line) return [];
  const lengths = line.slice(1).map(([c, d], k) => Math.hypot(c - line[k][0], d - line[k][1])), whole = lengths.reduce((sum, length) => sum + length, 0);
  if (whole < LONG) return [];
  const note = ([p, q], name) => {
    let walked = 0;
    for (const [k, length] of lengths.entries()) {
      const [a, b] = line[k], [x, y] = [(line[k + 1][0] - a) / length, (line[k + 1][1] - b) / length], on = Math.min(length, Math.max(0, (p - a) * x + (q - b) * y));
      const along = walked + on, off = Math.hypot(p - a - on * x, q - b - on * y);
      if (name && along > 100 && along < whole - 100 && off < NEAR && !(found.get(name)?.off < off)) found.set(name, { along, off });
      walked += length;
    }
  };
  for (const door of via.doors ?? []) {
    if (door === from || door === to) continue;
    const beyond = door.rooms.find((room) => room !== via);
    note(door.point, door.name ? titleOf(door) : beyond && !isPassage(beyond) ? nameOf(beyond) : null);
  }
  for (const guest of via.guests ?? []) note(guest.point, nameOf(guest));
  for (const own of [from, to]) for (const it of [own, ...(own.rooms ?? [])]) found.delete(nameOf(it));
  const nearest = [...found].sort((one, other) => one[1].off - other[1].off).slice(0, 2);
  return nearest.sort((one, other) => one[1].along - other[1].along).map(([name]) => name);
}

/** One step in words: by what one goes, past what, and where to. `before` is the step before it, and `place` who was asked for as the start. */
export function sentenceOf(step, before, place) {
  const leg = step.legs[0], [via, from, to] = [leg.via, step.from, step.to].map((id) => features.get(id));
  if (step.isRide) return rideOf(step);
  if (!via || !from || !to) return say("on");
  const turn = turnBetween(before?.legs.at(-1), leg), isNamed = place && place !== upper(noun(via)), begin = !before && !nameOf(via) && isNamed ? [say("begin", { name: place })] : [];
  const names = passedOn(leg), past = names.length ? say("past", { names: list(names) }) : "";
  const isLeaving = to.type === "opening" && (from === via || (from.type !== "opening" && (nameOf(via) || begin.length)));
  const words = to === via ? say("into", { what: theOf(via) }) : isLeaving && !past ? say("leave", { what: theOf(via) })
    : say(ALONG.has(via.category) ? "along" : "through", { what: theOf(via), past, to: toOf(to, via) });
  return [...begin, ...(turn ? [say(turn)] : []), words].join(" ");
}

function rideOf({ legs, levels: [from, to], kind }) {
  const ride = legs.find(({ passage }) => passage), it = features.get(ride.via), many = Math.abs(to - from);
  const what = nameOf(it) ?? noun({ category: kind }, 1), words = say(to > from ? "ride.up" : to < from ? "ride.down" : "ride.level", { what, level: signed(to) });
  return many > 1 ? `${words} (${say("ride.many", { n: many })})` : words;
}

/** What a way comes to: what is walked, and what is counted by the kind of passage. */
export function sumOf(legs) {
  const counted = new Map();
  for (const leg of legs) if (countedOf(leg)) counted.set(leg.passage, (counted.get(leg.passage) ?? 0) + countedOf(leg));
  const cost = legs.reduce((sum, leg) => sum + leg.cost, 0);
  return { cost, counted, walked: [...counted.values()].reduce((rest, extra) => rest - extra, cost) };
}
