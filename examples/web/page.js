// The page: it asks for ways, and draws and tells those alone that check.js proves.
import { isClosedFor, judgeReply } from "./check.js";
import { chosenOf, clock, date, label, list, say, spoken, upper } from "./words.js";
import { drawLanguages, icon, make, remembered, tellElements } from "./frame.js";
import { Trouble, ask, closedRows, features, featuresOf, isOfSite, keep, kept, levelOf, nodesOf, passagesOf, placesOf, readSite, sentence, server, site, tableFor, takeSite } from "./store.js";
import { ALONG, iconOf, isPassage, labelOf, noun, profileName, signed, titleOf, titleWithLevel } from "./names.js";
import { readIcons } from "./draw.js";
import { drawAnew, drawLevels, drawNews, fit, listenToMap, ordinals, pictureOf, showLevel, shown } from "./map.js";
import { indexPlaces, listenToField, placeAt, titleAt } from "./search.js";
import { bendsOf, exactLength, legsOf, lineOf, sentenceOf, spokenLength, spokenTime, stepsOf, sumOf } from "./way.js";

const EVERY = 10_000, WATCHED = 1_200, SOON = 3_000, RARELY = 60_000, TRIES = 3, MOST_COMPARED = 5_000;
const $ = (id) => document.getElementById(id);

// What is asked for, what was answered, and what is wrong.
const state = { from: null, to: null, profile: null, turn: 0, answer: null, faults: [], silent: null, isLoading: false, isRenewing: false, isOld: null, waiting: null,
  shownAnswer: null, compared: { version: 0, time: Date.now() } };

// ---- The words of the page around

/** Puts the page into a language: all that stands in it now, and all that is told from now on. */
function tellPage(language) {
  tellElements(language);
  $("venue").textContent = document.title = (site.name && label(site.name, site.language)?.text) || (site.folder ? upper(site.folder) : say("map"));
  if (!site.mark) return;
  drawProfiles();
  drawLegend();
  drawLevels(make, icon, (ordinal) => show(ordinal));
  for (const key of ["from", "to"]) $(key).value = titleAt(state[key]);
}

async function tellAnew(language) {
  tellPage(language);
  await indexPlaces().catch(note);
  for (const key of ["from", "to"]) $(key).value = titleAt(state[key]);
  drawAnew();
  showAnswer(state.shownAnswer ?? null, state.shownAnswer?.reply);
  tellLive();
}

function drawProfiles() {
  $("profiles").querySelectorAll("label").forEach((it) => it.remove());
  for (const value of site.profiles) {
    const input = make("input", { type: "radio", name: "profile", value, change: () => { state.profile = value; askAnew(); } });
    input.checked = value === state.profile;
    $("profiles").append(make("label", {}, input, make("span", {}, value === "walk" || value === "wheelchair" ? icon(value) : null, profileName(value))));
  }
}

function drawLegend() {
  const looks = ["walkway", "room", "restroom", "elevator", "stairs", "solid", "closed", "reached"];
  $("legend").querySelector("ul").replaceChildren(...looks.map((look) => make("li", {}, make("i", { class: `look ${look}` }), say(`legend.${look}`))));
}

// ---- The map's news

const show = (ordinal) => showLevel(ordinal).catch(note);
const isHere = (it, ordinal) => it && it.ordinal === ordinal && it.point;

/** The points of a leg on a level: its line, or the one end of it that is there. */
function pointsOn(leg, ordinal) {
  const here = [leg.from, leg.to].map((id) => features.get(id)).filter((it) => isHere(it, ordinal));
  return here.length === 2 ? lineOf(leg) : here.map(({ point }) => point);
}

/** The identifiers of what these closures close for a profile. */
const closedFor = (closures, profile) => closedRows(closures).filter((row) => isClosedFor(row, profile)).map(({ id }) => id);

/** What stands on a level beside its plan: what is closed for who is on the way, what can be reached, the way and its marks. */
function newsOf(ordinal) {
  const { answer } = state, here = (ids) => ids.map((id) => features.get(id)).filter((it) => isHere(it, ordinal));
  const closed = here(closedFor(server.closures, state.profile).flatMap((id) => features.get(id)?.ends ?? [id]));
  const reached = here([...new Set((answer?.reply.reached ?? []).map((it) => it.node ?? it))]).filter((it) => it.rings);
  const steps = answer?.steps ?? [], lines = [], turns = [];
  for (const step of steps) {
    for (const leg of step.legs) {
      const points = pointsOn(leg, ordinal);
      if (points.length > 1) lines.push({ points: points.flat(), isPicked: step.number === answer.picked });
    }
    if (!step.isRide) continue;
    const [from, to] = [features.get(step.legs.find(({ passage }) => passage).from), features.get(step.legs.findLast(({ passage }) => passage).to)];
    const mark = (it, text) => isHere(it, ordinal) && turns.push({ it, point: it.point, picture: step.kind, text, rank: 0, look: "turn" });
    mark(from, say("to.level", { level: signed(step.levels[1]) }));
    if (step.levels[0] !== step.levels[1]) mark(to, say("from.level", { level: signed(step.levels[0]) }));
  }
  const end = (key, picture) => here([state[key]]).map((it) => ({ it, point: it.point, picture, text: titleOf(it), rank: 0, look: key }));
  const shut = closed.map((it) => ({ it, point: it.point, picture: "closed", text: say("closed"), rank: 1, look: "shut" }));
  return { closed, reached, lines, marks: [...turns, ...end("from", "start"), ...end("to", "place"), ...shut] };
}

/** Offers what was tapped as the start or the end. */
function offer(tapped) {
  const guests = tapped && !ALONG.has(tapped.category) && !isPassage(tapped) ? tapped.guests : null, it = guests?.[0] ?? tapped;
  const isPlace = it && (it.type === "opening" || placeAt(it.id)), choice = (key) => make("button", { type: "button", click: () => { $("card").hidden = true; choose(key, it.id); } }, say(`${key}.here`));
  $("card").hidden = !isPlace;
  if (isPlace) $("card").replaceChildren(make("p", { lang: labelOf(it)?.lang ?? null }, titleOf(it)), choice("from"), choice("to"));
}

// ---- Asking

const titleHere = (id) => titleAt(id) || (features.has(id) ? titleOf(features.get(id)) : "");

/** Takes a place, or none, as the start or the end. */
function choose(key, id) {
  state[key] = id;
  if (id && !(state.from && state.to)) show(placeAt(id)?.ordinal ?? features.get(id)?.ordinal);
  askAnew();
}

/** The address of what is asked for, to be sent or printed on a wall. */
function writeAddress() {
  const keys = Object.entries({ from: state.from, to: state.to, profile: state.profile }).filter(([, value]) => value);
  history.replaceState(null, "", `#${new URLSearchParams(keys)}`);
}

/** Takes what the address names. A place stays there while nobody could say yet whether there is one. */
function readAddress() {
  const told = new URLSearchParams(location.hash.slice(1)), profile = site.profiles.find((it) => it === told.get("profile"));
  for (const key of ["from", "to"]) state[key] = told.get(key) || null;
  state.profile = profile ?? state.profile ?? site.profiles[0];
}

function askAnew() {
  for (const key of ["from", "to"]) $(key).value = titleHere(state[key]);
  writeAddress();
  return findWay();
}

const anchorsOf = (places) => ({ get: (id) => (places.get(id)?.type === "occupant" ? places.get(id).node : undefined) });

/** An answer with its verdict, of one version: what is closed is asked after the reply, and all anew where the version went on meanwhile. */
async function askForProof(asked) {
  for (let tries = 0; tries < TRIES; tries += 1) {
    performance.mark("way asked");
    const reply = await ask("/v1/route", { ...asked, certificate: "yes" });
    performance.mark("way answered");
    const [{ table, parts }, closures, isSame, { byId }] = await Promise.all([tableFor(asked.profile, reply), ask("/v1/closures", {}, "closures"), isSiteOf(reply.version), placesOf()]);
    if (closures.version !== reply.version || isSame === null) continue;
    return ready({ asked, reply, closures, table, line: isSame ? judgeReply(asked, reply, closures, table, parts, anchorsOf(byId)) : "fails table", time: Date.now() });
  }
  throw new Trouble("changes");
}

/** The answer with its legs and steps, once the levels are there of which its words and its lines tell; in `straight` the units in which a line should bend and can't. */
async function ready(answer) {
  const { reply, table } = answer;
  if (answer.line !== "proved") return answer;
  await passagesOf();
  const levelAt = (id) => table.partOf[table.numbers.get(id)], ordinalAt = (id) => site.levels[levelAt(id)]?.ordinal;
  answer.legs = legsOf({ start: reply.start, steps: reply.steps ?? [] }, ordinalAt);
  // Of a ride over many levels only its ends are told and drawn.
  const { legs } = answer, told = legs.flatMap(({ passage, from, to }, k) => [...(passage && passage === legs[k - 1]?.passage ? [] : [from]), ...(passage && passage === legs[k + 1]?.passage ? [] : [to])]);
  await Promise.all([...new Set([reply.start, ...told].map(levelAt))].filter((level) => level !== undefined).map(levelOf));
  const bent = legs.filter(({ corners }) => corners.length), bends = new Map(await Promise.all(bent.map(async ({ via }) => [via, await bendsOf(via, table)])));
  for (const leg of bent) leg.bends = leg.corners.map((corner) => bends.get(leg.via)?.[corner - 1]).filter(Boolean);
  answer.straight = [...bends.keys()].filter((via) => !bends.get(via));
  answer.steps = stepsOf(legs);
  return answer;
}

/** Asks for the way and shows it; `before` is the answer in whose place it comes, where nobody asked for another. */
async function findWay(before = null) {
  const turn = (state.turn += 1), asked = { from: state.from, to: state.to, profile: state.profile };
  state.waiting = null;
  if (!before) $("news").textContent = "";
  if (!asked.from || !asked.to) return showAnswer(null);
  if (!before) showAnswer({ hint: "looking" });
  $("answer").setAttribute("aria-busy", "true");
  const [answer] = await Promise.all([askForProof(asked).catch((trouble) => ({ trouble })), state.names]);
  if (turn !== state.turn) return;
  const isSilent = answer.trouble?.key === "silent";
  if (isSilent || answer.trouble?.key === "version_ahead") state.waiting = asked;
  if (isSilent && !before?.legs && (await showKept(asked, turn))) return;
  if (isSilent && before?.legs) return $("answer").removeAttribute("aria-busy");
  if (answer.trouble?.key === "no_such_place" || (answer.line && answer.line !== "proved")) await compareSite();
  if (answer.closures) server.closures = answer.closures;
  state.isOld = null;
  if (before && answer.reply) tellChange(before, answer);
  showAnswer(answer, before?.reply);
  performance.mark("way told");
  if (answer.line === "proved") keep({ asked, reply: answer.reply, closures: answer.closures, time: answer.time }).catch(() => null);
}

/** Shows the last way that was kept, judged anew by what was kept with it, where it is the one that is asked for. */
async function showKept(asked, turn) {
  const told = await kept().catch(() => null);
  if (!told || ["from", "to", "profile"].some((key) => told.asked[key] !== asked[key])) return false;
  try {
    const { byId } = await placesOf(), { table, parts } = await tableFor(asked.profile, told.reply);
    const answer = await ready({ ...told, table, line: judgeReply(asked, told.reply, told.closures, table, parts, anchorsOf(byId)) });
    if (turn !== state.turn || answer.line !== "proved") return false;
    state.isOld = told.time;
    server.closures = told.closures;
    showAnswer(answer);
    tellLive();
    return true;
  } catch {
    return false;
  }
}

function tellChange(before, answer) {
  const closed = new Set(closedFor(answer.closures, answer.asked.profile)), isOther = JSON.stringify(before.reply.steps) !== JSON.stringify(answer.reply.steps);
  const shut = [...new Set((before.legs ?? []).flatMap(({ from, via, to }) => [from, via, to]))].filter((id) => closed.has(id));
  const next = answer.line !== "proved" ? "" : ` ${say(answer.reply.result === "none" ? "no.other" : "new.way")}`;
  if (shut.length) $("news").textContent = `${say("closed.way", { what: shut.map(titleWithLevel).join("; ") })}${next}`;
  else if (isOther) $("news").textContent = `${say("closed.other")}${next}`;
}

// ---- Answers

function showAnswer(answer, before) {
  const isProved = answer?.line === "proved", isRoute = isProved && answer.reply.result === "route";
  state.answer = isProved ? answer : null;
  state.shownAnswer = answer;
  const focused = [...$("answer").querySelectorAll("button")].indexOf(document.activeElement);
  const hint = answer ? answer.hint : "choose";
  $("answer").removeAttribute("aria-busy");
  $("answer").replaceChildren(...(hint ? [make("p", { class: "hint" }, say(hint))] : !isProved ? failure(answer) : isRoute ? wayInWords(answer) : noWay(answer)));
  $("answer").querySelectorAll("button")[focused]?.focus();
  tellLive();
  drawClosures();
  if (isProved) listenLater();
  if (isProved && !isRoute) fit();
  if (isRoute && answer.steps.length && JSON.stringify(before?.steps) !== JSON.stringify(answer.reply.steps)) pick(answer, null);
  else drawNews();
}

function failure({ trouble, line }) {
  const why = trouble ? (state.waiting && trouble.key === "silent" ? say("silent.way") : sentence(trouble)) : say("not.proved", { why: say(`fails.${line.split(" ")[1]}`) });
  const isTold = state.faults.includes(why) && !state.isRenewing;
  return [isTold ? null : make("p", { class: "failed" }, icon("failed"), state.isRenewing ? say("renewing") : why), make("button", { type: "button", class: "again", click: () => findWay() }, say("ask.again"))].filter(Boolean);
}

const proof = (text) => make("p", { class: "proof" }, icon("proved"), text);

/** What the numbers and the word "checked" mean. */
function meaning({ reply, time }, sum) {
  const lines = [...(sum ? [say("what.minutes"), say("what.exact", { walked: exactLength(sum.walked), cost: exactLength(sum.cost) })] : []), say("what.checked"), say("what.believed"), say("what.version", { version: reply.version, time: clock(time) })];
  return make("details", { class: "note" }, make("summary", {}, say("what")), ...lines.map((line) => make("p", {}, line)));
}

function noWay(answer) {
  const { reply, asked } = answer, isChair = asked.profile === "wheelchair";
  return [make("h2", {}, say(isChair ? "none.wheelchair" : "none.walk")), proof(say("checked.none")),
    make("p", { class: "of" }, say("none.what", { name: titleHere(asked.from), n: reply.reached.filter((it) => typeof it === "string").length })), meaning(answer, null)];
}

function wayInWords(answer) {
  const { legs, steps, straight, asked } = answer, sum = sumOf(legs), key = ["walk", "wheelchair"].includes(asked.profile) ? asked.profile : "other";
  const counted = [...sum.counted].map(([kind, extra]) => say("counted", { metres: spokenLength(extra), what: noun({ category: kind }, 1) }));
  const ends = make("p", { class: "ends-told" }, `${titleHere(asked.from)} → ${titleHere(asked.to)}, ${profileName(asked.profile)}`);
  const rows = steps.map((step, k) => {
    const via = features.get(step.legs[0].via), picture = icon(step.isRide ? step.kind : isPassage(via) ? iconOf(via) : "floor");
    const walked = step.cost - step.counted, words = sentenceOf(step, steps[k - 1], titleHere(asked.from));
    const button = { type: "button", click: () => pick(answer, step.number) };
    return make("li", { class: step.isRide ? "turn" : null }, make("button", button, picture, make("span", {}, words), make("b", {}, step.isRide && walked < 500 ? "" : spokenLength(walked))));
  });
  const told = legs.length ? [make("h2", {}, spokenLength(sum.walked)), make("span", { class: "time" }, spokenTime(sum.cost))] : [make("h2", {}, say("here"))];
  return [...(state.isOld ? [make("p", { class: "old" }, say("kept.way", { date: date(state.isOld) }))] : []), ends, make("div", { class: "sum" }, ...told), proof(say(`checked.${key}`, { profile: profileName(asked.profile) })),
    make("p", { class: "of" }, counted.length ? say("counted.to", { counted: list(counted) }) : legs.length ? say("to.walk") : ""),
    ...(straight.length ? [make("p", { class: "old" }, say("straight", { what: straight.map(titleWithLevel).join("; ") }))] : []),
    make("ol", { "aria-label": say("steps") }, ...rows), sharing(), meaning(answer, sum)];
}

function sharing() {
  const told = make("span", { role: "status" }), address = make("input", { readonly: "", hidden: "", "aria-label": say("share.by.hand") });
  const share = async () => {
    address.value = location.href;
    try {
      await navigator.clipboard.writeText(location.href);
      told.textContent = say("share.done");
    } catch {
      told.textContent = say("share.by.hand");
      address.hidden = false;
      address.select();
    }
  };
  return make("p", { class: "share" }, make("button", { type: "button", id: "share", click: share }, icon("share"), say("share")), make("button", { type: "button", click: () => print() }, icon("print"), say("print")), told, address);
}

/** Shows one step of a way, or the whole of it as far as it is on the level of its start. */
async function pick(answer, number) {
  answer.picked = number;
  const step = number === null ? null : answer.steps[number], ordinal = step ? step.levels[0] : features.get(answer.reply.start)?.ordinal;
  [...$("answer").querySelectorAll("li")].forEach((row, k) => (k === number ? row.setAttribute("aria-current", "step") : row.removeAttribute("aria-current")));
  await show(ordinal);
  drawNews();
  if (shown.ordinal === ordinal) fit(boxOn(answer, ordinal, step), step ? 0.2 : 0.6);
}

/** The box round what of a way, or of one step, lies on a level, with some room. */
function boxOn({ steps }, ordinal, step) {
  const points = (step ? [step] : steps).flatMap(({ legs }) => legs.flatMap((leg) => pointsOn(leg, ordinal)));
  const [xs, ys] = [points.map(([x]) => x), points.map(([, y]) => y)];
  if (!points.length) return undefined;
  return [Math.min(...xs) - 500, Math.min(...ys) - 500, Math.max(...xs) + 500, Math.max(...ys) + 500];
}

/** What is closed, and for whom where that isn't for all. */
async function drawClosures() {
  const { closures } = server.closures, rows = closedRows(server.closures);
  await featuresOf(rows.map(({ id }) => id)).catch(note);
  if (closures !== server.closures.closures) return;
  const forWhom = (profiles) => (profiles ? make("small", {}, say("closed.for", { names: list(profiles.map(profileName)) })) : null);
  const items = rows.map(({ id, profiles }) => make("li", {}, titleWithLevel(id), forWhom(profiles)));
  $("closures").replaceChildren(...(rows.length ? [make("h2", {}, icon("closed"), say("closed.now")), make("ul", {}, ...items)] : []));
  drawNews();
}

// ---- Print

/** Beside the steps, a picture of each level on which the way has a line, at most four. */
async function drawPaper() {
  const { answer } = state, ordinals = answer ? [...new Set((answer.steps ?? []).flatMap(({ isRide, levels }) => (isRide ? levels : [levels[0]])))].slice(0, 4) : [];
  const pictures = await Promise.all(ordinals.map(async (ordinal) => make("figure", {}, await pictureOf(ordinal, boxOn(answer, ordinal) ?? [0, 0, 1000, 1000], [520, 300]), make("figcaption", {}, upper(say("level", { level: signed(ordinal) }))))));
  $("paper").replaceChildren(...pictures);
}

// ---- Live

function note(trouble) {
  const text = sentence(trouble);
  if (trouble.key === "silent") state.silent = trouble;
  else if (!state.faults.includes(text)) state.faults.push(text);
  tellLive();
}

/** What is wrong, of the server and of what this page was begun with, or that all is well. */
function tellLive() {
  const { silent, faults, isRenewing } = state, { version } = server.closures;
  const last = silent && server.heard && !state.isOld ? ` ${say("seen", { time: clock(server.heard), version })}` : "";
  const isTold = [...$("answer").querySelectorAll(".failed")].some((it) => it.textContent === say("renewing"));
  $("trouble").textContent = [...faults, silent && !state.isOld && !faults.includes(sentence(silent)) ? `${sentence(silent)}${last}` : "", isRenewing && !isTold ? say("renewing") : ""].join(" ").trim();
  $("trouble").hidden = !$("trouble").textContent;
  $("live").textContent = state.isLoading ? say("loading") : silent ? say(state.isOld ? "offline" : "no.answer") : version ? say("live.version", { version }) : say("live");
  $("live").className = state.isLoading ? "busy" : silent ? "off" : "on";
}

/** Whether the server's folder is this site's at a version: by the number of its places, and where that is another one or they aren't too many, by all of
    them. Null where the version went on. Between a publication and its site it isn't, and the page says so until there is another site. */
async function isSiteOf(version) {
  if (state.compared.version !== version || state.isRenewing) {
    const now = await ask("/v1/version");
    if (now.version !== version) return null;
    if (now.places !== site.places || now.places <= MOST_COMPARED || state.isRenewing) await compareSite();
    state.compared.version = version;
  }
  return !state.isRenewing;
}

async function compareSite() {
  state.isRenewing = !(await isOfSite().catch(() => true));
  await takeNewSite();
}

/** Begins anew where there is another site, but not while a list of places is open. */
async function takeNewSite() {
  state.compared.time = Date.now();
  const { mark } = await readSite().catch(() => site);
  if (mark !== site.mark && !document.querySelector("[aria-expanded=true]")) location.reload();
}

/** Asks what is closed; where the version went on, the way is asked for anew, and whether the folder is still this site's. A list that is the same stays
    the one that is held, which may be being drawn. */
async function poll() {
  const told = await ask("/v1/closures", {}, "closures"), isSame = JSON.stringify(told.closures) === JSON.stringify(server.closures.closures), isOther = told.version !== server.closures.version;
  server.closures = isSame ? { ...told, closures: server.closures.closures } : told;
  await isSiteOf(told.version);
  const isFailed = state.shownAnswer?.line && !state.answer;
  if (isOther || isFailed || Date.now() - state.compared.time > RARELY) await takeNewSite();
  if (!isSame) await drawClosures();
  if (state.waiting || (state.isOld && state.from && state.to)) return findWay();
  const { reply, trouble } = state.shownAnswer ?? {}, isLate = reply ? reply.version !== told.version : trouble;
  if (isOther && isLate && state.from && state.to) await findWay(state.answer ?? { reply: {} });
}

/** Asks now, and again after a while. */
async function listen() {
  clearTimeout(state.next);
  try {
    if (!site.mark) await start();
    else await poll();
    [state.silent, server.heard] = [null, Date.now()];
  } catch (trouble) {
    state.silent = trouble;
  }
  tellLive();
  listenLater();
}

/** Asks again after a while: soon where something is to come back, and sooner while an answer is shown, since something on the way may be closed at any moment. */
function listenLater() {
  clearTimeout(state.next);
  state.next = setTimeout(() => (document.hidden ? null : listen()), state.silent || state.isRenewing ? SOON : state.answer ? WATCHED : EVERY);
}

// ---- The start

/** Reads what stands in files: the settings and one level first, then names. What of it can't be read is told, and the rest goes on. */
async function start() {
  state.isLoading = true;
  tellLive();
  try {
    takeSite(await readSite());
    readAddress();
    tellPage(spoken());
    fit();
    await Promise.all([readIcons().then(drawAnew), show(ordinals().sort((a, b) => Math.abs(a) - Math.abs(b) || b - a)[0])]);
    performance.mark("first map");
    if (site.left) state.faults.push(say("left.out", { n: site.left }));
  } finally {
    state.isLoading = false;
    tellLive();
  }
  state.names = indexPlaces().then(() => { for (const key of ["from", "to"]) $(key).value = titleHere(state[key]); }, note);
  if (state.from && state.to) nodesOf().catch(() => null);
  if (state.from || state.to) await Promise.all([askAnew(), listen()]);
  else await listen();
  await state.names;
  if (state.from || state.to) return;
  if (state.silent) await openKept();
}

/** Where nothing answers and nothing is asked for, the last way that was kept. */
async function openKept() {
  const told = await kept().catch(() => null);
  if (!told) return;
  Object.assign(state, told.asked);
  drawProfiles();
  await askAnew();
}

$("form").addEventListener("submit", (event) => event.preventDefault());
$("swap").addEventListener("click", () => { [state.from, state.to] = [state.to, state.from]; askAnew(); });
for (const key of ["from", "to"]) listenToField(key, { make, icon, chosen: () => state[key], choose: (id) => choose(key, id) });
addEventListener("hashchange", () => { readAddress(); drawProfiles(); askAnew(); });
document.addEventListener("visibilitychange", () => document.hidden || listen());
addEventListener("beforeprint", () => drawPaper());
tellPage(chosenOf([remembered(), ...navigator.languages]));
drawLanguages(tellAnew);
listenToMap(newsOf, offer);
showAnswer(null);
navigator.serviceWorker?.register("sw.js").catch(() => null);
await start().catch(note);
if (!site.mark) listen();
