// For whom a feature is closed, or is to be closed or opened: for all, or for the profiles of a list.
import { list, say } from "../words.js";
import { site } from "../store.js";

export const ALL = "*"; // no profile is called so

/** For whom each feature is closed, by its identifier, as the server's rows say it. */
export const closedBy = (rows) => new Map(rows.map((row) => (typeof row === "string" ? [row, ALL] : [row.feature, [...row.profiles]])));

/** Whether what is closed for these, or for nobody, stands as closing it for those, or opening it, would leave it. */
export const isSo = (these, isClosing, those) => (Array.isArray(these) ? those !== ALL && those.every((it) => these.includes(it) === isClosing) : isClosing === Boolean(these));

/** Those of the first that aren't among the second. */
export function less(these, those) {
  if (!these || those === ALL) return [];
  const rest = (these === ALL ? site.profiles : these).filter((it) => !those?.includes(it));
  return these === ALL && (!those || !rest.length) ? ALL : rest;
}

/** A profile as those who move so, in the page's own words where it has them. */
export const nameOf = (profile) => (["walk", "wheelchair"].includes(profile) ? say(`who.${profile}`) : profile.replace(/[-_]/g, " "));
export const inWords = (whom) => say("for", { who: whom === ALL ? say("everyone") : list(whom.map(nameOf)) });
/** That it is closed for these, or open for them; or open, where nobody is meant. */
export const howOf = (whom, isClosed = Boolean(whom)) => say(isClosed ? "is.closed" : "is.open", { who: whom ? inWords(whom) : "" }).trim();
