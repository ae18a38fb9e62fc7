// What things are called, in the visitor's language.
import { say, nounOf, label, upper, list } from "./words.js";
import { features, site } from "./store.js";

export const SOLID = new Set(["opentobelow", "column", "brick", "concrete", "drywall", "glass", "wood", "structure", "vegetation"]);
export const PASSAGES = new Set(["elevator", "escalator", "ramp", "stairs", "steps", "movingwalkway", "traversal"]);
/** Units that one goes along, and that aren't called after who is in them. */
export const ALONG = new Set(["walkway", "platform", "lobby", "ramp", "movingwalkway"]);

export const isPassage = (it) => PASSAGES.has(it?.category);
export const iconOf = (it) => (it?.category === "steps" ? "stairs" : isPassage(it) || it?.category === "restroom" ? it.category : it?.type ?? "floor");
export const labelOf = (it) => label(it?.name, site.language);
export const noun = (it, form = 0) => nounOf(it.category)[form];
export const signed = (ordinal) => String(ordinal).replace("-", "−");
/** A profile's name: the page's own word, where it has one. */
export const profileName = (profile) => (profile === "walk" || profile === "wheelchair" ? say(`profile.${profile}`) : upper(profile.replace(/[-_]/g, " ")));
export const levelName = (ordinal) => say("level", { level: signed(ordinal) });

export function levelTitle(ordinal) {
  const plain = say("level.title", { level: signed(ordinal) }), names = new Set(site.levels.filter((level) => level.ordinal === ordinal).map(({ name }) => label(name, site.language)?.text));
  for (const idle of [undefined, plain]) names.delete(idle);
  return names.size && names.size < 4 ? say("level.of", { level: signed(ordinal), names: list([...names]) }) : plain;
}

/** A feature's own name, or that of who is in it; a hall or a lift isn't called after a shop in it. */
export function nameOf(it) {
  const isNamedByGuests = it.type === "anchor" || (it.type === "unit" && !isPassage(it) && !ALONG.has(it.category));
  return labelOf(it)?.text ?? (isNamedByGuests && it.guests ? it.guests.map(titleOf).join(", ") : null);
}

export function titleOf(it) {
  if (it.type !== "opening" || it.name) return nameOf(it) ?? upper(noun(it));
  const rooms = (it.rooms ?? []).map((room) => nameOf(room) ?? noun(room));
  return rooms.length ? say("door.of", { rooms: rooms.join(" – ") }) : say("door");
}

/** What one goes into, along or through, by its name or its noun. */
export const theOf = (it) => nameOf(it) ?? noun(it, 1);

/** Where to: a thing by its name or its noun; a door by what lies behind it. */
export function toOf(it, via) {
  const beyond = it.type === "opening" ? (it.rooms ?? []).find((room) => room !== via) : null, name = it.type === "opening" ? labelOf(it)?.text : nameOf(it);
  if (name) return say("to.name", { name });
  if (it.type !== "opening") return noun(it, 2);
  if (isPassage(beyond)) return noun(beyond, 2);
  return beyond && nameOf(beyond) ? say("the.door.of", { name: nameOf(beyond) }) : say("the.door");
}

/** A feature as a list of what is closed tells it, with its level. */
export function titleWithLevel(id) {
  const it = features.get(id);
  if (!it) return say("unknown");
  const ordinals = it.levels ? it.levels.map((level) => site.levels[level]?.ordinal) : [it.ordinal], at = [...new Set(ordinals)].sort((a, b) => a - b);
  const levels = at.length > 1 ? say("to.range", { from: signed(at[0]), to: signed(at.at(-1)) }) : signed(at[0]);
  return `${titleOf(it)}, ${say("level.range", { levels })}`;
}
