// What the pages have in common around the map: how elements are made, and the language that is spoken and remembered.
import { LANGUAGES, say, speak, spoken } from "./words.js";

/** Makes elements with attributes, of which null and false are none and a function is what an event calls, and children, of which null is none. */
const maker = (create) => (name, attributes = {}, ...children) => {
  const element = create(name);
  for (const [key, value] of Object.entries(attributes)) {
    if (typeof value === "function") element.addEventListener(key, value);
    else if (value !== null && value !== false) element.setAttribute(key, value);
  }
  element.append(...children.filter((child) => child !== null));
  return element;
};
export const make = maker((name) => document.createElement(name));
const draw = maker((name) => document.createElementNS("http://www.w3.org/2000/svg", name));
export const icon = (name) => draw("svg", { class: "icon", "aria-hidden": "true" }, draw("use", { href: `icons.svg#${name}` }));

export const remembered = () => { try { return localStorage.getItem("language"); } catch { return null; } };

/** Puts what the page's own file marks with a key into a language, and tells all from now on in it. */
export function tellElements(language) {
  speak(language);
  for (const element of document.querySelectorAll("[data-say]")) for (const rule of element.dataset.say.split(" ")) {
    const [key, attribute] = rule.split("@");
    if (attribute) element.setAttribute(attribute, say(key));
    else element.textContent = say(key);
  }
}

/** The chooser of languages; `tellAnew` puts the page into the one that is chosen. */
export function drawLanguages(tellAnew) {
  const choice = make("select", { "aria-label": say("choose.language"), "data-say": "choose.language@aria-label", change: ({ target }) => {
    try { localStorage.setItem("language", target.value); } catch { /* it is asked for again next time */ }
    tellAnew(target.value);
  } }, ...Object.entries(LANGUAGES).map(([tag, name]) => make("option", { value: tag, lang: tag, title: name, "aria-label": name }, tag.toUpperCase())));
  choice.value = spoken();
  document.getElementById("language").replaceChildren(choice);
}
