// Judges replies of GET /v1/route with their certificates over a table of links in parts, from docs/FORMATS.md alone. It asks nothing of anybody, and
// touches nothing of the page.

const PART_LIMIT = 67_108_864;
export const MOST_NODES = 400_000, MOST_LINK = 6_700_000;
export const NUMBER = "(0|[1-9][0-9]{0,18})", IDENTIFIER = "([0-9a-f]{8}(?:-[0-9a-f]{4}){3}-[0-9a-f]{12})";

export const line = (form) => new RegExp(`^${form}$`);
export const NODE = line(`node ${IDENTIFIER}`), LINK = line(`link ${NUMBER} ${NUMBER} ${NUMBER} ${IDENTIFIER}`);
const PARTS = line("imdf-parts 1 [0-9a-f]{16}"), ROOM = line(`room ${IDENTIFIER}((?: (?:0|[1-9][0-9]{0,5})){2,})`), COSTS = line("costs((?: (?:0|[1-9][0-9]{0,6}))+)");

/** What stops a text or fails of an answer, as the line that says so. */
class Stop extends Error {}
export function need(holds, clause) {
  if (!holds) throw new Stop(`fails ${clause}`);
}

/** The lines of a text that are not read yet; a text that isn't there is null. */
export class Lines {
  constructor(name, text, limit) {
    if (text === null) throw new Stop(`missing ${name}`);
    if (text.length > limit) throw new Stop(`large ${name}`);
    this.name = name;
    this.lines = text.split("\n");
    this.behind = this.lines.pop();
    this.at = 0;
  }

  fault() { throw new Stop(`form ${this.name} ${this.at + 1}`); }

  /** The words of the next line after its first, numbers as such, where it is of the form and they fit; else null. */
  take(form, fits = () => true) {
    const found = this.at < this.lines.length ? form.exec(this.lines[this.at]) : null;
    const words = found && found.slice(1).map((word) => (/^[0-9]+$/.test(word) ? Number(word) : word));
    if (!words || !fits(...words)) return null;
    this.at += 1;
    return words;
  }

  need(form, fits) { return this.take(form, fits) ?? this.fault(); }

  all(form, fits) {
    const found = [];
    for (let words = this.take(form, fits); words; words = this.take(form, fits)) found.push(words);
    return found;
  }

  end() {
    this.need(/^end$/);
    if (this.at < this.lines.length || this.behind) this.fault();
  }
}

export function told(judge) {
  try {
    judge();
    return "proved";
  } catch (stop) {
    if (stop instanceof Stop) return stop.message;
    throw stop;
  }
}

/** What is read, or { stop } with the line that says what is wrong with it. */
function orStop(reads) {
  let found;
  const stop = told(() => (found = reads()));
  return found ?? { stop };
}

/** The nodes of a table in parts: the mark of the cut, the identifier and the part of each number; from an identifier to its number, and to those of its corners,
    since the k-th further line of an identifier is its corner k. Or { stop }. */
export const readNodes = (text) => orStop(() => {
  const lines = new Lines("parts.txt", text, PART_LIMIT), nodes = [], partOf = [];
  lines.need(PARTS);
  const mark = lines.lines[0].slice(-16);
  let parts = 0;
  for (; lines.take(/^part$/); parts += 1) {
    for (; nodes.length < MOST_NODES && NODE.test(lines.lines[lines.at]); lines.at += 1) {
      nodes.push(lines.lines[lines.at].slice(5));
      partOf.push(parts);
    }
  }
  lines.end();
  const numbers = new Map(), corners = new Map();
  for (const [number, id] of nodes.entries()) {
    if (!numbers.has(id)) numbers.set(id, number);
    else if (corners.has(id)) corners.get(id).push(number);
    else corners.set(id, [number]);
  }
  return { mark, nodes, numbers, corners, partOf: Int32Array.from(partOf), parts };
});

/** A part of a profile's table: its blocks, each with its members and the cost between each two of them, and its other links. Or { stop }. `name` is
    the part's number, or `between`. A link whose ends aren't both of this part, or between two, is none of the form. */
export const readPart = (text, { mark, nodes, partOf }, name) => orStop(() => {
  const lines = new Lines(`${name}.txt`, text, PART_LIMIT), rooms = [], links = [], isBetween = name === "between";
  if (!lines.take(/^imdf-part 1 [0-9a-f]{16} (?:between|[0-9]+)$/)) lines.fault();
  if (lines.lines[0] !== `imdf-part 1 ${mark} ${name}`) throw new Stop(`mark ${name}.txt`);
  const list = (words) => Int32Array.from(words.trim().split(" "), Number);
  const isHere = (node) => node < nodes.length && partOf[node] === name;
  const fits = (from, to, cost) => from < nodes.length && to < nodes.length && cost <= MOST_LINK && (isBetween ? partOf[from] !== partOf[to] : isHere(from) && isHere(to));
  for (;;) {
    const room = isBetween ? null : lines.take(ROOM);
    const link = room ? null : lines.take(LINK, fits);
    if (link) links.push(link);
    else if (room) {
      const members = list(room[1]), costs = [];
      if (new Set(members).size < members.length || !members.every(isHere)) lines.fault();
      for (let rest = members.length - 1; rest > 0; rest -= 1) {
        const row = list(lines.need(COSTS)[0]);
        if (row.length !== rest || row.some((cost) => cost > MOST_LINK)) lines.fault();
        costs.push(row);
      }
      rooms.push({ via: room[0], members, costs });
    } else break;
  }
  lines.end();
  return { name, rooms, links };
});

/** The number of the node of this identifier, or with a corner of that corner of it; undefined where the table hasn't it. */
const numberOf = ({ numbers, corners }, id, corner) => (corner === undefined ? numbers.get(id) : Number.isSafeInteger(corner) ? corners.get(id)?.[corner - 1] : undefined);

// The numbers of the nodes that a step, a potential and an item of `reached` name. Such an item is an object where it is a corner, else a text.
const numberOfStep = (table, step) => numberOf(table, step?.to, step?.corner);
const numberOfMark = (table, mark) => numberOf(table, mark?.node, mark?.corner);
const numberOfReached = (table, it) => (typeof it === "string" ? numberOf(table, it) : numberOf(table, it?.node, it?.corner ?? null));

/** The parts in which a link can lie that starts or ends at a node that the reply names, beside that between the parts, which is always needed. */
export function partsOf(reply, table) {
  const list = (value, number) => (Array.isArray(value) ? value : []).map((it) => number(table, it));
  const named = [...list([reply.start, reply.from], numberOf), ...list(reply.steps, numberOfStep), ...list(reply.potentials, numberOfMark), ...list(reply.reached, numberOfReached)];
  return new Set(named.filter((number) => number !== undefined).map((number) => table.partOf[number]));
}

/** Whether one of these parts has an open link with these ends, cost and via. */
function hasLink(parts, isOpen, from, to, cost, via) {
  if (!isOpen(from, to, via)) return false;
  return parts.some(({ rooms, links }) => links.some(([a, b, c, by]) => a === from && b === to && c === cost && by === via) || rooms.some((room) => {
    const ends = room.via === via ? [room.members.indexOf(from), room.members.indexOf(to)].sort((a, b) => a - b) : [-1, -1];
    return ends[0] >= 0 && ends[0] < ends[1] && room.costs[ends[0]][ends[1] - ends[0] - 1] === cost;
  }));
}

/** That no open link of these parts breaks what `holds` says of the values of its two ends and its cost. */
function needLinks(parts, isOpen, isListed, valueOf, holds) {
  for (const { name, rooms, links } of parts) {
    for (const { via, members, costs } of rooms) {
      if (!members.some(isListed)) continue;
      const isIn = Array.from(members, (node) => isOpen(node, node, via)), values = Array.from(members, valueOf);
      for (let i = 0; i < costs.length; i += 1) for (let k = 0, j = i + 1; isIn[i] && j < values.length; k += 1, j += 1) {
        const cost = costs[i][k];
        need(!isIn[j] || (holds(values[i], values[j], cost) && holds(values[j], values[i], cost)), `link of part ${name}`);
      }
    }
    for (const [from, to, cost, via] of links) need(!isOpen(from, to, via) || holds(valueOf(from), valueOf(to), cost), `link of part ${name}`);
  }
}

/** A row of what is closed: `id`, and the names of the `profiles` for which it is, or null where it is for all. Null where it isn't of the form. */
export function readRow(row) {
  const isText = (it) => typeof it === "string";
  if (isText(row)) return { id: row, profiles: null };
  const { feature: id, profiles } = row ?? {}, isSome = Array.isArray(profiles) && profiles.length > 0 && profiles.every(isText);
  return isText(id) && isSome && Object.keys(row).length === 2 ? { id, profiles } : null;
}

/** Whether such a row is closed for a profile. */
export const isClosedFor = ({ profiles }, profile) => !profiles || profiles.includes(profile);

/** The identifiers of what these rows close for a profile. A row that isn't of the form can't be judged. */
function closedFor(rows, profile) {
  need(Array.isArray(rows), "closures");
  const read = rows.map(readRow);
  need(read.every(Boolean), "closures");
  return new Set(read.filter((row) => isClosedFor(row, profile)).map(({ id }) => id));
}

/** `proved`, or what fails of a reply to what was asked, over the table less what is closed for the profile at the same version. `parts` has by their names the parts
    that partsOf tells and `between`, and `anchors` the anchor of each occupant. The kind of a step stands in no table and isn't judged.

    Why these parts are enough: a node that the reply doesn't list has the potential `cost`, and isn't reached. So a link neither of whose ends is
    listed rises by nothing, and leads out of nothing. Each other link lies in the part of its listed end, or else between two parts. */
export function judgeReply(asked, reply, closures, table, parts, anchors) {
  return told(() => {
    const whole = (value) => Number.isSafeInteger(value) && value >= 0, list = (value) => (need(Array.isArray(value), "form"), value);
    need(whole(reply.version) && reply.version === closures.version, "version");
    const { nodes, numbers, corners, partOf } = table, closed = closedFor(closures.closures, reply.profile);
    const shut = new Set([...closed].flatMap((id) => [numbers.get(id), ...(corners.get(id) ?? [])])), isThere = (node) => node !== undefined;
    const isOpen = (from, to, via) => !closed.has(via) && !shut.has(from) && !shut.has(to);
    need(["from", "to", "profile"].every((key) => reply[key] === asked[key]), "asked");
    const [start, end] = [asked.from, asked.to].map((place) => numbers.get(numbers.has(place) ? place : anchors.get(place)));
    need(isThere(start) && isThere(end), "place");
    const wanted = ["between", ...partsOf(reply, table)].map((name) => parts.get(name));
    need(wanted.every(Boolean), "part");
    if (reply.result === "none") {
      const reached = new Set(list(reply.reached).map((it) => numberOfReached(table, it)));
      need([...reached].every(isThere) && reached.size === reply.reached.length, "node");
      need(reached.has(start), "start");
      need(!reached.has(end), "finish");
      const isReached = (node) => reached.has(node);
      return needLinks(wanted, isOpen, isReached, isReached, (from, to) => !from || to);
    }
    const { cost } = reply, marks = list(reply.potentials);
    need(reply.result === "route" && whole(cost), "form");
    need(reply.start === nodes[start], "start");
    let at = start, total = 0;
    list(reply.steps).forEach((step, k) => {
      const to = numberOfStep(table, step), of = [parts.get("between"), parts.get(partOf[at])];
      need(isThere(to) && hasLink(of, isOpen, at, to, step.cost, step.via), `step ${k + 1}`);
      at = to;
      total += step.cost;
    });
    const listed = new Map(marks.map((mark) => [numberOfMark(table, mark), mark?.value])), potential = (node) => listed.get(node) ?? cost;
    need([...listed.keys()].every(isThere), "node");
    need([...listed.values()].every(Number.isSafeInteger) && listed.size === marks.length, "potentials");
    need(at === end, "end");
    need(total === cost, "sum");
    need(potential(start) === 0, "start");
    need(potential(end) === cost, "finish");
    needLinks(wanted, isOpen, (node) => listed.has(node), potential, (from, to, length) => to <= from + length);
  });
}
