// Sentences by language: one table a language, and what is chosen among them. A sentence is a text, or texts by the form that the number `n` asks for.
import en from "./en.js";
import de from "./de.js";

const TABLES = { en, de };
export const LANGUAGES = Object.fromEntries(Object.entries(TABLES).map(([tag, { sentences }]) => [tag, sentences.language]));
/** Adds the sentences of a further page, each in all languages in the order of their tables. */
export function learn(further) {
  for (const [k, { sentences }] of Object.values(TABLES).entries()) for (const [key, its] of Object.entries(further)) sentences[key] = its[k];
}

const base = (tag) => tag.toLowerCase().split("-")[0];
let table = en, tag = "en", plural = new Intl.PluralRules("en");

/** The first of these languages that has a table. */
export const chosenOf = (wanted) => wanted.map((it) => base(it ?? "")).find((it) => it in TABLES) ?? "en";

export function speak(language) {
  [tag, table, plural] = [language, TABLES[language], new Intl.PluralRules(language)];
  document.documentElement.lang = language;
}

export const spoken = () => tag;

/** The sentence of this key with these values in it. */
export function say(key, values = {}) {
  const entry = table.sentences[key];
  if (entry === undefined) console.error(`no sentence ${key} in ${tag}`);
  const text = typeof entry === "object" ? entry[plural.select(values.n)] ?? entry.other : entry ?? key;
  return text.replace(/\{(\w+)\}/g, (_, name) => values[name]);
}

/** A category's noun: alone, as what one takes or goes through, and as where to. One that no table has stands for itself. */
export const nounOf = (category) => table.forms(table.nouns[category]?.split("/")[0] ?? table.unknown(category.replaceAll("_", " ")));

/** The words by which a category is searched, in all languages. */
export const wordsOf = (category) => Object.values(TABLES).map(({ nouns, forms }) => (nouns[category] ? `${forms(nouns[category].split("/")[0])[0]} ${nouns[category].split("/")[1] ?? ""}` : category)).join(" ");

/** Numbers and times as where the browser is, where that is in the language that is spoken. */
const locale = () => navigator.languages.find((it) => base(it) === tag) ?? tag;
export const number = (value, digits = 0) => value.toLocaleString(locale(), { minimumFractionDigits: digits, maximumFractionDigits: digits });
export const list = (texts) => new Intl.ListFormat(tag).format(texts);
export const clock = (time, hasSeconds = false) => new Date(time).toLocaleTimeString(locale(), { hour: "2-digit", minute: "2-digit", second: hasSeconds ? "2-digit" : undefined });
export const date = (time) => new Date(time).toLocaleString(locale(), { dateStyle: "medium", timeStyle: "short" });
export const upper = (text) => text.charAt(0).toUpperCase() + text.slice(1);

/** A text of a name with its language: in the language that is chosen, else in the first of the browser's, then of the venue's, that has one. */
export function label(names, venue = "en") {
  const tags = Object.keys(names ?? {});
  for (const wanted of [tag, ...navigator.languages, venue, "en"]) {
    const found = tags.find((it) => it.toLowerCase() === wanted.toLowerCase()) ?? tags.find((it) => base(it) === base(wanted));
    if (found) return { text: names[found], lang: found };
  }
  return tags.length ? { text: names[tags[0]], lang: tags[0] } : null;
}
