// The page of staff: it closes and opens features and publishes folders, each change sent once, and tells what it would mean and what stands.
import { chosenOf, clock, label, list, say, spoken, upper } from "../words.js";
import "./words.js";
import { drawLanguages, icon, make, remembered, tellElements } from "../frame.js";
import { ask, features, featuresOf, isOfSite, levelOf, passagesOf, readSite, sentence, server, site, takeSite } from "../store.js";
import { ALONG, SOLID, isPassage, titleOf, titleWithLevel } from "../names.js";
import { readIcons } from "../draw.js";
import { drawAnew, drawLevels, drawNews, fit, listenToMap, ordinals, showLevel, shown } from "../map.js";
import { indexPlaces, listenToField, placeAt, search, titleAt, titleOfPlace } from "../search.js";
import { isKey, send } from "./change.js";
import { ALL, closedBy, howOf, inWords, isSo, less, nameOf } from "./whom.js";
import { showFindings } from "./findings.js";

const EVERY = 2_000, SOON = 3_000, RARELY = 60_000, SLOW = 4_000, TAP_AGAIN = 600, MOST_TOLD = 6, MOST_DOORS = 12, MOST_VERSIONS = 200, MOST_COMPARED = 5_000;
const PATIENCE = { key: 15_000, closures: 60_000, publish: 600_000 };
const $ = (id) => document.getElementById(id);

// What is chosen and for whom, what is on its way, and what is known. The key stands here alone.
const state = { key: "", choices: [], whom: ALL, closes: true, armed: 0, turn: 0, closed: new Map(), gone: [], titles: new Map(), folders: [], rules: {}, versions: [], own: new Set(), isOther: false, compared: 0, faults: new Set(), told: {} };

const closedFor = (id) => state.closed.get(id);
const write = (id, text) => { if ($(id).textContent !== text) $(id).textContent = text; };
/** Tells sentences at a place of the page, in the language of then, and again in another. */
function tell(id, keys = "", values = {}) {
  state.told[id] = [keys, values];
  write(id, keys && keys.split(" ").map((key) => say(key, { ...values, how: values.how?.() })).join(" "));
}

// ---- The key

function drawKey() {
  for (const it of $("key-form").querySelectorAll(":not(p)")) it.hidden = (it.id === "key-forget") !== Boolean(state.key);
}

function forgetKey(why = "key.hint") {
  state.key = "";
  drawKey();
  tell("key-told", why);
  $("key").focus();
}

/** Tries a key by a change that asks for nothing, which is answered 400 where the server knows the key, and 403 where not. */
async function takeKey() {
  const typed = $("key").value.trim();
  if (state.isTrying) return;
  if (!isKey(typed)) return tell("key-told", "key.form");
  state.isTrying = true;
  tell("key-told", "key.checking");
  const came = await send("/v1/closures", {}, typed, PATIENCE.key);
  state.isTrying = false;
  if (came.name === "not_staff" || (came.is === "kept" && came.why !== "offline.kept")) {
    tell("key-told", came.name ? "key.wrong" : came.why, came);
    return $("key").select();
  }
  state.key = typed;
  $("key").value = "";
  drawKey();
  tell("key-told", came.name === "bad_body" ? "key.ok" : "key.unchecked");
  if (state.told.told?.[0] === "key.needed") tell("told");
  (state.isAsked ? $("sure") : $("what")).focus();
}

// ---- What is chosen

/** What can be closed where something was tapped or found: of a lift or stairs first the way between the levels, then the place, then its doors. */
function choicesOf(tapped) {
  const it = ["unit", "opening"].includes(tapped?.type) ? tapped : tapped?.unit ?? tapped?.anchor?.unit;
  if (!it || SOLID.has(it.category)) return [];
  const doors = it.doors ?? [], parts = new Set([it, ...(isPassage(it) ? doors : [])].map(({ id }) => id)), rides = [...features.values()].filter(({ ends }) => ends?.some((id) => parts.has(id)));
  return [...(isPassage(it) ? [...rides, it] : [it, ...rides]), ...(ALONG.has(it.category) ? [] : doors.slice(0, MOST_DOORS))].map(({ id }) => id);
}

async function pickAt(tapped) {
  await passagesOf().catch(note);
  const choices = choicesOf(tapped);
  if (state.sending) return;
  state.place = tapped && placeAt(tapped.id) ? tapped.id : null;
  $("what").value = titleAt(state.place);
  pick(choices[0], choices);
}

async function choose(id) {
  if (!id) { state.place = null; return; }
  const { level, ordinal } = placeAt(id);
  await levelOf(level).catch(note);
  await show(ordinal);
  await pickAt(features.get(id));
  const at = features.get(id)?.point;
  if (at) fit([at[0] - 2_500, at[1] - 2_500, at[0] + 2_500, at[1] + 2_500]);
}

function pick(id, choices, more = {}) {
  Object.assign(state, { picked: id, choices, whom: ALL, closes: true, isAsked: false, armed: performance.now() + TAP_AGAIN }, more);
  tell("news");
  drawPicked();
  $("card").scrollIntoView({ block: "nearest" });
}

function drawPicked() {
  tell("told");
  askMeaning();
  drawCard();
  drawNews();
}

const choiceTitle = (id) => {
  const it = features.get(id), title = titleWithLevel(id);
  return it?.ends ? say("the.ride", { title }) : isPassage(it) ? say("only.place", { title }) : title;
};

/** Of closing and opening the one that changes something for who is chosen. */
function settle() {
  const { picked, whom, closes, sending } = state;
  if (!sending && isSo(closedFor(picked), closes, whom)) Object.assign(state, { closes: !closes, isAsked: false });
}

/** The card of what is chosen. */
function drawCard() {
  const { picked: id, whom, closes } = state, its = closedFor(id), isSent = Boolean(state.sending);
  $("card").hidden = !id;
  if (!id) return;
  write("picked", titleWithLevel(id));
  write("stands", upper(howOf(its)));
  $("stands").className = its ? "shut" : "";
  $("choices").hidden = state.choices.length < 2;
  $("choice").replaceChildren(...state.choices.map((it) => make("option", { value: it }, choiceTitle(it))));
  $("choice").value = id;
  $("choice").disabled = $("whom").disabled = isSent;
  drawWhom(its);
  const words = (key, isClosing) => upper(say(key, { verb: say(isClosing ? "close" : "open"), who: inWords(whom) }));
  write("act", words("change.ask", closes));
  write("other", words("change.ask", !closes));
  write("sure", isSent ? say("sent") : words(state.meaning?.text ? "change.now" : "change.blind", closes));
  drawButtons("", state.isAsked);
  $("other").hidden ||= isSo(its, !closes, whom);
}

/** The buttons of a change. A focus on one of them stays with them. */
function drawButtons(of, isAsked) {
  const [act, other, sure, dont] = ["act", "other", "sure", "dont"].map((it) => $(of + it)), isSent = Boolean(state.sending), focused = document.activeElement;
  for (const it of [act, other]) if (it) it.hidden = isAsked;
  sure.hidden = dont.hidden = !isAsked;
  sure.setAttribute("aria-disabled", String(isSent));
  dont.disabled = isSent;
  if ([act, other, sure, dont].includes(focused) && (focused.hidden || focused.disabled)) (isAsked ? sure : act).focus();
}

/** The choice for whom: everyone, or some of the profiles of the page and the server. */
function drawWhom(its) {
  const { whom } = state, profiles = [...new Set([site.profiles, whom, its].filter(Array.isArray).flat())], titles = [say("everyone"), ...profiles.map(nameOf)].map(upper);
  if ($("whom").textContent !== [say("whom"), ...titles].join("")) {
    for (const it of $("whom").querySelectorAll("label")) it.remove();
    $("whom").append(...titles.map((title, k) => make("label", {}, make("input", { type: "checkbox", value: profiles[k - 1], change: takeWhom }), make("span", {}, title))));
  }
  for (const [k, it] of $("whom").querySelectorAll("input").entries()) it.checked = k ? whom.includes(it.value) : whom === ALL;
}

/** Everyone is chosen alone, and where nobody else is. */
function takeWhom({ target }) {
  const [all, ...rest] = $("whom").querySelectorAll("input"), chosen = rest.filter((it) => it.checked).map((it) => it.value);
  Object.assign(state, { whom: target === all || !chosen.length ? ALL : chosen, closes: true, isAsked: false });
  drawPicked();
}

// ---- What it would mean

let worker = null;

/** Has the worker compute it for those for whom it isn't so already, wheelchairs first. */
function askMeaning() {
  settle();
  const { picked, whom, closes, entrances } = state, isShut = (id, profile) => isSo(closedFor(id), true, [profile]);
  const profiles = (whom === ALL ? site.profiles : whom).filter((it) => isShut(picked, it) !== closes).sort((one, other) => (other === "wheelchair") - (one === "wheelchair"));
  const why = state.isOther ? "meaning.other" : !entrances ? "meaning.unknown" : profiles.length ? null : "meaning.failed", number = (state.turn += 1);
  state.meaning = picked ? { number, version: server.closures.version, closes, profiles, rows: {}, why, text: why } : null;
  if (picked && !why) {
    worker ??= listenToWorker(new Worker(new URL("reach.js", import.meta.url), { type: "module" }));
    const data = new URL(`data/${site.mark}/`, document.baseURI).href;
    for (const profile of profiles) {
      const before = [...state.closed.keys()].filter((it) => isShut(it, profile)), after = closes ? [...before, picked] : before.filter((it) => it !== picked);
      worker.postMessage({ number, data, profile, entrances, before, after, feature: picked });
    }
  }
  drawMeaning();
}

function listenToWorker(made) {
  const fail = () => { if (state.meaning) state.meaning.why = state.meaning.text = "meaning.failed"; drawMeaning(); drawCard(); };
  made.addEventListener("message", async ({ data }) => {
    await state.names;
    const { meaning } = state;
    if (data.number !== meaning?.number) return;
    if (data.wrong) return fail();
    meaning.rows[data.profile] = data;
    if (meaning.profiles.every((it) => it in meaning.rows)) meaning.text = "meaning.of";
    drawMeaning();
    drawCard();
    drawNews();
    if (meaning.text === "meaning.of") $("card").scrollIntoView({ block: "nearest" });
  });
  made.addEventListener("error", fail);
  return made;
}

/** The names of the places at these nodes. */
function namesOf(nodes) {
  const its = new Set(nodes), counts = new Map();
  for (const it of search("")) if (its.has(it.node) && it.type !== "opening" && !isPassage(it)) counts.set(titleOfPlace(it), (counts.get(titleOfPlace(it)) ?? 0) + 1);
  const told = [...counts], rest = told.splice(MOST_TOLD).reduce((sum, [, n]) => sum + n, 0), names = told.map(([name, n]) => (n > 1 ? `${name} (${n})` : name));
  return counts.size ? list([...names, ...(rest ? [say("and.more", { n: rest })] : [])]) : say("doors.alone", { n: nodes.length });
}

/** What a closing would cut off for any profile. */
const cutOff = ({ closes, profiles, rows }) => (closes ? profiles.flatMap((it) => rows[it]?.lost ?? []) : []);

function drawMeaning() {
  const { meaning } = state;
  if (!meaning) return $("meaning").replaceChildren();
  const { closes, profiles, rows, why, text, version } = meaning, kind = closes ? "lost" : "gained";
  const lineOf = (profile) => {
    const { isWithout, [kind]: its } = rows[profile], key = `${kind}.${profile === "wheelchair" ? profile : "other"}`, who = nameOf(profile);
    const line = isWithout ? say("meaning.without", { who }) : its.length ? say(key, { names: namesOf(its), who }) : say(`${key}.none`, { who });
    return make("p", { class: closes && its?.length ? "cut" : null }, upper(line));
  };
  const isOf = text === "meaning.of", end = why ? say("meaning.not", { why: say(why) }) : say(text ?? "meaning", { version });
  $("meaning").replaceChildren(...(isOf ? profiles.map(lineOf) : []), make("p", { class: "note" }, isOf && cutOff(meaning).length ? `${say("shades")} ${end}` : end));
}

// ---- The map

const show = async (ordinal) => {
  await showLevel(ordinal).catch(note);
  $("card").hidden = !state.picked;
};

function newsOf(ordinal) {
  const here = (ids) => ids.map((id) => features.get(id)).filter((it) => it?.ordinal === ordinal && it.point), endsOf = (id) => features.get(id)?.ends ?? [id], { closed, picked, meaning } = state;
  const marksOf = (id, picture, look, text) => here(endsOf(id)).map((it) => ({ it, point: it.point, picture, text, rank: Number(look === "shut"), look })), its = features.get(picked);
  const shut = [...closed].flatMap(([id, whom]) => marksOf(id, "closed", "shut", whom === ALL ? say("closed") : upper(howOf(whom))));
  const reached = here(meaning ? [...new Set(cutOff(meaning))] : []).filter((it) => it.rings);
  return { closed: here([...closed.keys()].flatMap(endsOf)), reached, lines: [], marks: [...(its ? marksOf(picked, "place", "from", titleOf(its)) : []), ...shut] };
}

// ---- Changes

/** Sends a change once, and none beside it. Where no reply comes the server is asked what stands, until it answers. */
async function change(path, body, place, told, wait) {
  if (state.sending) return;
  if (!state.key) {
    tell(place, "key.needed");
    return $("key").focus();
  }
  const sent = { time: clock(Date.now(), true), version: server.closures.version };
  state.sending = sent;
  tell(place, told, { ...body, ...sent });
  drawAll();
  const slow = setTimeout(() => told.endsWith("waiting") && tell(place, "sent.at slow", sent), SLOW), came = await send(path, body, state.key, wait);
  clearTimeout(slow);
  if (came.is === "lost") {
    tell(place, "lost lost.asking");
    while (!(await pollNow().then(() => true, hear))) await new Promise((next) => setTimeout(next, SOON));
  }
  if (came.is === "done") {
    state.own.add(came.told.version);
    await pollNow().catch(hear);
  }
  state.sending = null;
  if (came.name === "not_staff") forgetKey("key.wrong");
  if (came.is === "refused" && came.name !== "rejected") tell(place, came.name === "not_staff" ? "key.wrong" : `unchanged why.${came.name}`);
  if (came.is === "kept") tell(place, came.why, came);
  return came;
}

async function closeOrOpen() {
  const { picked: id, whom, closes } = state, title = $("picked").textContent;
  if (performance.now() < state.armed) return;
  const came = await change("/v1/closures", { feature: id, closed: closes, profiles: whom === ALL ? undefined : whom }, "told", "sent.at waiting", PATIENCE.closures);
  if (!came) return;
  const { version } = came.told ?? server.closures, its = closedFor(id), stands = isSo(its, closes, whom);
  if (came.is === "done") tell("told", came.told.changed ? "change.done" : "change.was", { title, version, how: () => howOf(whom, closes) });
  if (came.is === "lost") tell("told", stands ? "lost lost.stands lost.is" : "lost lost.is still", { title, version, how: () => howOf(its) });
  if (came.is === "done" || stands) {
    state.isAsked = false;
    askMeaning();
  }
  drawAll();
}

// ---- What is closed

/** What is closed, each with a button that opens it for the same, and what a restart has opened. */
async function drawClosures() {
  const { closed } = state;
  await featuresOf([...closed.keys(), ...state.gone.map(([id]) => id)]).catch(note);
  if (closed !== state.closed) return;
  const rows = [...closed].map(([id, whom]) => [id, titleWithLevel(id), whom]), lists = JSON.stringify([rows, state.gone, spoken()]);
  if (lists === state.listed) return;
  state.listed = lists;
  const focused = [...$("closures").querySelectorAll("button")].indexOf(document.activeElement);
  const button = (key, name, click) => make("button", { "aria-label": say(key, { name }), click }, upper(say(key, { name: "" }).trim()));
  const go = (id, whom, closes) => async () => {
    if (state.sending) return;
    const it = features.get(id);
    await show(it?.ordinal ?? site.levels[it?.levels?.[0]]?.ordinal ?? shown.ordinal);
    pick(id, [id], { whom, closes, isAsked: true });
    $("sure").focus();
  };
  const leave = (id) => () => { state.gone = state.gone.filter(([it]) => it !== id); drawClosures(); };
  const none = rows.length ? [] : [make("li", { class: "hint" }, say("none.closed"))];
  $("closures").replaceChildren(...none, ...rows.map(([id, name, whom]) => make("li", {}, make("span", {}, name), make("small", {}, inWords(whom)), button("open.it", name, go(id, whom, false)))));
  $("gone").hidden = !state.gone.length;
  $("gone").replaceChildren(...state.gone.map(([id, name, whom]) => make("li", {}, make("span", {}, say("gone", { name, who: inWords(whom) })), button("close.again", name, go(id, whom, true)), button("leave.it", name, leave(id)))));
  if (focused >= 0) ($("closures").querySelectorAll("button")[Math.min(focused, rows.length - 1)] ?? $("closures-title")).focus();
  drawNews();
}

// ---- Publications

function drawPublish() {
  const { folders } = state, chosen = $("folder").value, isNone = !folders.length;
  $("publish-form").hidden = isNone;
  if (isNone || state.told["publish-told"]?.[0] === "folders.none") tell("publish-told", isNone ? "folders.none" : "");
  if (String([...$("folder").options].map((it) => it.value)) !== String(folders)) $("folder").replaceChildren(...folders.map((it) => make("option", { value: it }, it)));
  if (folders.includes(chosen)) $("folder").value = chosen;
  $("folder").disabled = Boolean(state.sending);
  write("publish-sure", say(state.sending ? "sent" : "publish.sure"));
  drawButtons("publish-", state.isPublishAsked);
}

async function publish() {
  const folder = $("folder").value;
  if (performance.now() < state.armed || state.sending || !folder) return;
  const began = Date.now(), before = server.closures.version, ticks = setInterval(() => { $("judging").hidden = false; write("elapsed", `${Math.round((Date.now() - began) / 1000)} s`); }, 500);
  $("findings").replaceChildren();
  const came = await change("/v1/publish", { folder }, "publish-told", "sent.at judging.at", PATIENCE.publish);
  clearInterval(ticks);
  $("judging").hidden = true;
  write("elapsed", "");
  if (!came) return;
  const version = came.told?.version ?? server.closures.version, isMoved = came.is === "lost" && version !== before, values = { folder, version, before };
  if (came.is === "done") {
    const dropped = came.told.dropped ?? [];
    tell("publish-told", "published", values);
    if (dropped.length) $("findings").replaceChildren(make("p", {}, say("dropped", { names: list(dropped.map((id) => state.titles.get(id) ?? id)) })));
  }
  if (came.is === "lost") tell("publish-told", isMoved ? "lost publish.moved" : "lost publish.same still", values);
  if (came.name === "rejected") {
    tell("publish-told", "rejected unchanged", values);
    await showFindings($("findings"), folder, came.told, state.rules);
  }
  if (came.is === "done" || came.name === "rejected" || isMoved) state.isPublishAsked = false;
  drawAll();
}

// ---- Versions

/** Takes what the server says is closed, and notes what changed. A version that isn't above the last is of a server that began anew. */
async function take(told) {
  const { version } = server.closures, before = state.closed, now = closedBy(told.closures), ids = [...new Set([...before.keys(), ...now.keys()])];
  const changesOf = (one, other) => ids.map((id) => [id, less(one.get(id), other.get(id))]).filter(([, whom]) => whom.length), opened = changesOf(before, now), closed = changesOf(now, before);
  if (told.version === version && !opened.length && !closed.length) return false;
  await featuresOf(ids).catch(note);
  for (const id of ids) if (features.has(id)) state.titles.set(id, titleWithLevel(id));
  const titled = (its) => its.map(([id, whom]) => [titleWithLevel(id), whom]), isAnew = told.version <= version;
  if (isAnew) {
    state.own.clear();
    state.gone = opened.map(([id]) => [id, titleWithLevel(id), before.get(id)]);
  }
  state.gone = state.gone.filter(([id, , whom]) => !isSo(now.get(id), true, whom));
  state.versions.unshift({ version: told.version, from: version && !isAnew ? version + 1 : told.version, time: Date.now(), isFirst: !version, isAnew, closed: titled(closed), opened: titled(opened), count: now.size, isOwn: state.own.has(told.version) });
  state.versions.splice(MOST_VERSIONS);
  [server.closures, state.closed] = [told, now];
  return true;
}

function versionInWords({ version, from, isFirst, isAnew, closed, opened, count, isOwn }) {
  if (isFirst) return say("was.opened", { n: count });
  if (isAnew) return say("was.restarted");
  const titlesOf = (its) => list(its.map(([title, whom]) => (whom === ALL ? title : `${title} ${inWords(whom)}`))), isMore = from < version;
  const told = { "was.closed": closed.length, "was.open": opened.length, "was.published": !closed.length && !opened.length && !isMore, "was.between": isMore, "was.own": isOwn };
  return Object.keys(told).filter((key) => told[key]).map((key) => say(key, { names: titlesOf(key === "was.closed" ? closed : opened) })).join(" ");
}

function drawHistory() {
  $("history").replaceChildren(...state.versions.map((it) => make("li", {}, make("b", {}, say("version", { version: it.from < it.version ? `${it.from}–${it.version}` : it.version })), ` · ${clock(it.time, true)} · ${versionInWords(it)}`)));
}

// ---- Live

function note(trouble) {
  if (trouble.key === "silent") hear(trouble);
  else state.faults.add(sentence(trouble));
  tellLive();
}

function hear(trouble) {
  state.silent = trouble;
  tellLive();
}

function tellLive() {
  const { silent, faults, isOther } = state, { version } = server.closures, isOff = !navigator.onLine;
  const seen = silent && server.heard ? ` ${say("seen", { time: clock(server.heard), version })}` : "";
  write("trouble", [...faults, isOff ? say("offline.now") : silent ? `${sentence(silent)}${seen}` : "", isOther && !silent ? say("other.map") : ""].join(" ").trim());
  $("trouble").hidden = !$("trouble").textContent;
  const [key, look] = !site.mark ? ["loading", "busy"] : silent || isOff ? ["no.answer", "off"] : [version ? "live.version" : "live", "on"];
  write("live", say(key, { version }));
  $("live").className = look;
}

/** What is closed now. A server that began anew isn't as far as this page has seen the one before, and says so. */
const askClosures = () => ask("/v1/closures", {}, "closures").catch((trouble) => {
  if (trouble.key !== "version_ahead") throw trouble;
  server.version = server.ahead = 0;
  return ask("/v1/closures", {}, "closures");
});

async function poll() {
  const told = await askClosures(), isNew = await take(told), isDue = isNew || state.isOther || Date.now() - state.compared > RARELY;
  [state.silent, server.heard] = [null, Date.now()];
  if (isDue) await compare();
  if (!state.entrances && Date.now() - state.readAt > EVERY) await readFolders();
  if (!isNew) return;
  drawHistory();
  await drawClosures();
  if (state.picked && state.meaning?.version !== told.version) askMeaning();
  drawCard();
}

/** Whether the server's venue is that of the map, and whether there is another map. */
async function compare() {
  const now = await ask("/v1/version"), fresh = await readSite().catch(() => site), was = state.isOther;
  state.compared = Date.now();
  if (fresh.mark !== site.mark) await renew(fresh);
  state.isOther = now.places !== site.places || (now.places <= MOST_COMPARED && !(await isOfSite().catch(() => true)));
  if (was !== state.isOther && state.picked) askMeaning();
}

/** Shows another map, and keeps what was chosen where it has that too. */
async function renew(told) {
  takeSite(told);
  Object.assign(shown, { ordinal: null, levels: [] });
  state.faults.clear();
  await readFolders();
  await begin();
  if (!state.picked) return;
  await featuresOf([state.picked]).catch(note);
  if (features.has(state.picked)) return askMeaning();
  pick(null, []);
  tell("news", "gone.picked");
}

let running = null;
const pollOnce = () => (running ??= poll().finally(() => { running = null; }));
/** Asks anew, after what is being asked. */
const pollNow = async () => { await running?.catch(() => null); return pollOnce(); };

async function listen() {
  clearTimeout(state.next);
  await (site.mark ? pollOnce() : start()).catch(hear);
  tellLive();
  state.next = setTimeout(() => (document.hidden ? null : listen()), state.silent || state.isOther ? SOON : EVERY);
}

// ---- The start

function drawAll() {
  drawCard();
  drawPublish();
  drawClosures();
}

function tellPage(language) {
  tellElements(language);
  const name = label(site.name, site.language)?.text || upper(site.folder ?? "");
  $("venue").textContent = document.title = name ? say("staff.of", { name }) : say("staff");
  for (const [id, it] of Object.entries(state.told)) tell(id, ...it);
  if (site.mark) drawLevels(make, icon, show);
}

async function tellAnew(language) {
  tellPage(language);
  state.names = indexPlaces().catch(note);
  await state.names;
  drawAnew();
  drawHistory();
  drawMeaning();
  drawAll();
  tellLive();
}

/** What the operator says of folders, and of the entrances of the one that is served: a moment after the map, where both are new. */
async function readFolders() {
  state.readAt = Date.now();
  const told = await fetch("folders/folders.json", { cache: "no-cache" }).then((reply) => (reply.ok ? reply.json() : null)).catch(() => null);
  state.folders = Array.isArray(told?.folders) ? told.folders.filter((it) => /^[a-z0-9_-]{1,64}$/.test(it)) : [];
  state.rules = told?.rules ?? {};
  state.entrances = Array.isArray(told?.entrances) && told.mark === site.mark ? told.entrances : null;
  drawPublish();
  if (state.entrances && state.meaning?.why === "meaning.unknown") askMeaning();
}

async function begin() {
  tellPage(spoken());
  fit();
  await show(ordinals().sort((a, b) => Math.abs(a) - Math.abs(b) || b - a)[0]);
  drawAnew();
  state.names = indexPlaces().catch(note);
  await passagesOf().catch(note);
}

async function start() {
  takeSite(await readSite());
  state.faults.clear();
  await Promise.all([readIcons(), readFolders()]);
  await begin();
  await pollOnce();
}

/** The first of the two taps that a change takes, or that it isn't to be; a tap that follows at once isn't meant for what then stands there. */
const setAsked = (place, isAsked) => () => {
  if (state.sending) return;
  Object.assign(state, { [place]: isAsked, armed: performance.now() + TAP_AGAIN });
  drawCard();
  drawPublish();
};
const listenTo = (id, act, event = "click") => $(id).addEventListener(event, act);
listenTo("key-form", (event) => { event.preventDefault(); takeKey(); }, "submit");
listenTo("key-forget", () => forgetKey());
listenTo("choice", ({ target }) => pick(target.value, state.choices, { whom: state.whom }), "change");
listenTo("act", setAsked("isAsked", true));
listenTo("other", () => {
  state.closes = !state.closes;
  askMeaning();
  setAsked("isAsked", true)();
});
listenTo("sure", closeOrOpen);
listenTo("dont", setAsked("isAsked", false));
listenTo("publish-act", setAsked("isPublishAsked", true));
listenTo("publish-sure", publish);
listenTo("publish-dont", setAsked("isPublishAsked", false));
listenToField("what", { make, icon, chosen: () => state.place, choose });
for (const name of ["online", "offline"]) addEventListener(name, () => { tellLive(); listen(); });
document.addEventListener("visibilitychange", () => document.hidden || listen());
tellPage(chosenOf([remembered(), ...navigator.languages]));
drawLanguages(tellAnew);
drawKey();
tell("key-told", "key.hint");
listenToMap(newsOf, pickAt);
await start().catch(note);
listen();
