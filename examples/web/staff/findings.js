// What the server finds wrong with a folder: each rule with what it asks, each finding with its place in the picture of the folder that map.py drew.
import { icon, make } from "../frame.js";
import { number, say } from "../words.js";

const OPEN = 20, WIDE = 320; // findings of a rule at once; how much of the picture round one, in its own pixels

const nameOf = ({ rule, file, index, member }) => `${rule} ${file} ${index} ${member}`;

/** Where the findings stand in a picture, as [x, y] by their names. A finding that the picture's table has with a lens is where the lens looks;
    another one is at the first ring of its level that bears its label. */
export function placesIn(text) {
  const picture = new DOMParser().parseFromString(text.replace(/<style>[^<]*<\/style>/, ""), "image/svg+xml").documentElement, tops = new Map(), found = new Map();
  let lens = null, rule = null;
  for (const it of picture.children) {
    if (it.localName === "g") {
      const top = Number(/translate\(0 (\S+)\)/.exec(it.getAttribute("transform"))?.[1]);
      const plan = it.querySelector("g[id]");
      if (plan) tops.set(`#${plan.id}`, top);
      for (const tag of it.querySelectorAll("text.tag")) {
        const ring = tag.previousElementSibling, label = /^(\S+ \S+ \d+)/.exec(tag.textContent)?.[1];
        if (label && ring?.localName === "circle" && !found.has(label)) found.set(label, [Number(ring.getAttribute("cx")), Number(ring.getAttribute("cy")) + top]);
      }
    } else if (it.localName === "svg") {
      const [x, y, side] = it.getAttribute("viewBox").split(" ").map(Number);
      lens = [x + side / 2, y + side / 2 + tops.get(it.querySelector("use").getAttribute("href"))];
    } else if (it.localName === "text" && it.getAttribute("class") === "bold") rule = it.textContent;
    else if (it.localName === "text" && !it.getAttribute("class") && rule) {
      const row = /^(\S+ \d+ \d+)/.exec(it.textContent)?.[1];
      if (row && lens) found.set(`${rule} ${row}`, lens);
      [lens, rule] = [null, null];
    }
  }
  return found;
}

const placeOf = (places, it) => places.get(nameOf(it)) ?? places.get(`${it.rule} ${it.file.split(".")[0]} ${it.index}`);

/** Shows what a refusal tells of a folder. `rules` has what each rule asks. The focus stays where it is. */
export async function showFindings(box, folder, { findings, total }, rules) {
  const address = `folders/${folder}.svg`, reply = await fetch(address, { cache: "no-cache" }).catch(() => null), places = reply?.ok ? placesIn(await reply.text()) : null;
  const image = make("img", { src: places && address }), lens = make("div", { class: "lens" }, image);
  const look = (it, [x, y]) => {
    const zoom = lens.clientWidth / WIDE;
    lens.classList.remove("whole");
    Object.assign(image.style, { width: `${image.naturalWidth * zoom}px`, left: `${lens.clientWidth / 2 - x * zoom}px`, top: `${lens.clientHeight / 2 - y * zoom}px` });
    image.alt = say("picture.of", { finding: nameOf(it) });
    lens.scrollIntoView({ block: "nearest" });
  };
  const lookAtAll = () => {
    lens.classList.add("whole");
    image.removeAttribute("style");
    image.alt = say("picture", { folder });
  };
  const rowOf = (it) => {
    const at = placeOf(places ?? new Map(), it), words = say("finding", { file: it.file, index: number(it.index), member: it.member ? say("finding.member", { n: number(it.member) }) : "" });
    return make("li", {}, make("span", {}, words), at ? make("button", { "aria-label": `${say("show")}: ${words}`, click: () => look(it, at) }, icon("place"), say("show")) : null);
  };
  const ruleOf = ([rule, its]) => make("section", {}, make("h4", {}, `${rule}: `, make("span", { lang: "en" }, rules[rule] ?? say("rule.unknown"))),
    make("p", {}, make("a", { href: `folders/rules.html#${rule}`, target: "_blank", rel: "noopener" }, say("rule.page", { rule }))),
    make("ul", {}, ...its.slice(0, OPEN).map(rowOf)),
    its.length > OPEN ? make("details", {}, make("summary", {}, say("findings.more", { n: its.length - OPEN })), make("ul", {}, ...its.slice(OPEN).map(rowOf))) : null);
  const byRule = new Map();
  for (const it of findings) byRule.set(it.rule, [...(byRule.get(it.rule) ?? []), it]);
  lookAtAll();
  box.replaceChildren(make("h3", {}, say("findings", { n: number(total) })), findings.length < total ? make("p", {}, say("findings.first", { n: number(findings.length) })) : "",
    ...(places ? [make("figure", {}, lens, make("figcaption", {}, say("picture.told", { folder }))), make("button", { click: lookAtAll }, say("picture.whole"))] : [make("p", { class: "hint" }, say("picture.none", { folder }))]), ...[...byRule].map(ruleOf));
}
