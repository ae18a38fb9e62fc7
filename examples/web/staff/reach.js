// Which places a closing or an opening would cut off from the entrances, or join again: computed beside the page, over the whole table of a
// profile less what is closed. It proves nothing.
import { readNodes, readPart } from "../check.js";

const tables = new Map(); // by the address of the profile's folder, of the last publication

async function read(address) {
  const reply = await fetch(address);
  if (!reply.ok) throw new Error(address);
  return reply.text();
}

function whole(found) {
  if (found.stop) throw new Error(found.stop);
  return found;
}

/** The links of a profile without their costs: which units each node is a member of, and where its other links lead and come from. */
async function readTable(data, profile) {
  const nodes = whole(readNodes(await read(`${data}links/parts.txt`))), lists = () => Array.from(nodes.nodes, () => []);
  const table = { ...nodes, rooms: [], roomsOf: lists(), out: lists(), into: lists() };
  const names = ["between", ...Array(nodes.parts).keys()], texts = await Promise.all(names.map((name) => read(`${data}links/${profile}/${name}.txt`)));
  for (const [k, name] of names.entries()) {
    const part = whole(readPart(texts[k], nodes, name));
    texts[k] = null;
    for (const { via, members } of part.rooms) {
      for (const node of members) table.roomsOf[node].push(table.rooms.length);
      table.rooms.push({ via, members });
    }
    for (const [from, to, , via] of part.links) {
      table.out[from].push({ other: to, via });
      table.into[to].push({ other: from, via });
    }
  }
  return table;
}

function tableOf(data, profile) {
  for (const address of tables.keys()) if (!address.startsWith(data)) tables.delete(address);
  const address = `${data}${profile}`;
  if (!tables.has(address)) tables.set(address, readTable(data, profile).catch((wrong) => { tables.delete(address); throw wrong; }));
  return tables.get(address);
}

/** The nodes that open links lead to from these, or with `into` those from which they lead there. */
function reachedFrom({ numbers, nodes, rooms, roomsOf }, links, roots, closed) {
  const seen = new Uint8Array(nodes.length), isDone = rooms.map(({ via }) => closed.has(via)), queue = [];
  const meet = (node) => { if (!seen[node] && !closed.has(nodes[node])) { seen[node] = 1; queue.push(node); } };
  for (const id of roots) if (numbers.has(id)) meet(numbers.get(id));
  while (queue.length) {
    const node = queue.pop();
    for (const room of roomsOf[node]) if (!isDone[room]) {
      isDone[room] = true;
      rooms[room].members.forEach(meet);
    }
    for (const { other, via } of links[node]) if (!closed.has(via)) meet(other);
  }
  return seen;
}

/** For each node whether ways lead from it to an entrance and back. */
function joined(table, entrances, closed) {
  const [to, from] = [table.into, table.out].map((links) => reachedFrom(table, links, entrances, closed));
  return from.map((is, node) => is & to[node]);
}

/** What a change of this feature takes and gives for a profile, of what is closed for it before and after. */
async function judge({ data, profile, entrances, before, after, feature }) {
  const table = await tableOf(data, profile), { numbers, roomsOf, out, into } = table;
  const isOf = (id) => [roomsOf, out, into].some((its) => its[numbers.get(id)]?.length);
  if (!entrances.some(isOf)) return { isWithout: true };
  const [was, is] = [before, after].map((closed) => joined(table, entrances, new Set(closed)));
  const differ = (one, other) => [...numbers].flatMap(([id, node]) => (one[node] > other[node] && id !== feature ? id : []));
  return { lost: differ(was, is), gained: differ(is, was) };
}

self.addEventListener("message", async ({ data: asked }) => {
  const found = await judge(asked).catch((wrong) => ({ wrong: String(wrong) }));
  self.postMessage({ ...found, number: asked.number, profile: asked.profile });
});
