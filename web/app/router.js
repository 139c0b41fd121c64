// Which view is shown: the one that the address names after `#`, so that the browser's back button works.

import { byId } from "./dom.js";

const VIEWS = ["start", "ruleset", "packet", "change", "session"];
const shownListeners = new Map();
let current = null;

/** Has a function called each time a view is shown, with what stands after its name in the address. */
export function whenShown(view, listener) {
  shownListeners.set(view, listener);
}

/** Goes to a view; `place` is a part of it, such as a chain. */
export function openView(view, place = "") {
  const hash = place === "" ? `#${view}` : `#${view}/${encodeURIComponent(place)}`;
  if (location.hash === hash) showAddressed();
  else location.hash = hash;
}

// The text that a part of an address stands for; an address that is no such text names no place.
function decoded(part) {
  try {
    return decodeURIComponent(part);
  } catch {
    return "";
  }
}

function addressed() {
  const [view, place = ""] = location.hash.slice(1).split("/");
  return { view, place: decoded(place) };
}

/** Shows the view that the address names. */
export function showAddressed() {
  const { view, place } = addressed();
  if (view === "main") return;
  const name = VIEWS.includes(view) && !byId(`tab-${view}`).hidden ? view : "start";
  for (const each of VIEWS) {
    byId(`view-${each}`).hidden = each !== name;
    if (each === name) byId(`tab-${each}`).setAttribute("aria-current", "page");
    else byId(`tab-${each}`).removeAttribute("aria-current");
  }
  document.title = `${byId(`tab-${name}`).textContent} – iptsim`;
  if (current !== null && current !== name) byId("main").focus({ preventScroll: true });
  if (current !== name && place === "") window.scrollTo(0, 0);
  current = name;
  shownListeners.get(name)?.(place);
}

export function watchAddress() {
  window.addEventListener("hashchange", showAddressed);
}
