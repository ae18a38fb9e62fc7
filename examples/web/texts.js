// Judges an answer over a table of links as texts, as `venue verify` does, from docs/FORMATS.md alone. The page doesn't load it: it is here for who has
// the two files, and to compare it with other checkers.
import { Lines, LINK, MOST_LINK, MOST_NODES, NODE, NUMBER, line, need, told } from "./check.js";

const LINKS_LIMIT = 268_435_456, ANSWER_LIMIT = 33_554_432, MOST_COST = 4_398_046_511_103, MOST_STEP = 4_294_967_295;
const FROM = line(`from ${NUMBER}`), TO = line(`to ${NUMBER}`), STEP = line(`step ${NUMBER}`);
const ROUTE = line(`route ${NUMBER}`), AT = line(`at ${NUMBER} ${NUMBER}`), REACH = line(`reach ${NUMBER}`);

/** The identifiers of the nodes of a table, and its links as [from, to, cost, via], `from` and `to` being numbers of nodes. */
function read(text) {
  const lines = new Lines("links.txt", text, LINKS_LIMIT);
  lines.need(/^imdf-links 1$/);
  const nodes = [];
  for (let words; nodes.length < MOST_NODES && (words = lines.take(NODE)); ) nodes.push(words[0]);
  const links = lines.all(LINK, (from, to, cost) => from < nodes.length && to < nodes.length && cost <= MOST_LINK);
  lines.end();
  return { nodes, links };
}

/** That the steps, numbers of links, are a walk of this cost, and that along no link the potential rises by more than it costs. */
function judgeRoute({ links }, { start, end, cost, steps, listed }) {
  let at = start, total = 0;
  steps.forEach((step, index) => {
    need(step in links && links[step][0] === at, `step ${index + 1}`);
    at = links[step][1];
    total += links[step][2];
  });
  const potential = (node) => listed.get(node) ?? cost;
  need(at === end, "end");
  need(total === cost, "sum");
  need(potential(start) === 0, "start");
  need(potential(end) === cost, "finish");
  links.forEach((link, j) => need(potential(link[1]) <= potential(link[0]) + link[2], `link ${j}`));
}

/** That the start is among the listed nodes, the end isn't, and no link leads out of them. */
function judgeNone({ links }, { start, end, listed }) {
  need(listed.has(start), "start");
  need(!listed.has(end), "finish");
  links.forEach((link, j) => need(!listed.has(link[0]) || listed.has(link[1]), `link ${j}`));
}

/** The line that `venue verify` prints of the two texts of a base, of which each may be null. */
export function judgeTexts(links, answer) {
  return told(() => {
    const table = read(links), count = table.nodes.length, lines = new Lines("answer.txt", answer, ANSWER_LIMIT);
    if (count === 0) lines.fault();
    lines.need(/^imdf-answer 1$/);
    const [[start], [end]] = [FROM, TO].map((form) => lines.need(form, (node) => node < count));
    const route = lines.take(ROUTE, (cost) => cost <= MOST_COST);
    if (!route) lines.need(/^none$/);
    const steps = route ? lines.all(STEP, (step) => step <= MOST_STEP).flat() : [];
    let last = -1;
    const rises = (node, value = 0) => last < node && node < count && value <= MOST_COST && ((last = node), true);
    const listed = new Map(lines.all(route ? AT : REACH, rises));
    lines.end();
    (route ? judgeRoute : judgeNone)(table, { start, end, cost: route?.[0], steps, listed });
  });
}
