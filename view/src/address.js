// The address

import { page } from "./page.js";
import { panelSizes, sizesText } from "./split.js";

/** Names the place in the address, a while after it was reached: browsers refuse an address that changes often. */
export function nameAddress() {
  page.naming ||= setTimeout(() => {
    page.naming = 0;
    if (page.run) history.replaceState(null, "", `#${placeText()}`);
  }, 400);
}
/** Keeps the place that is shown as one to which the browser's Back returns. Some browsers refuse many at once. */
export function rememberPlace() {
  clearTimeout(page.naming);
  page.naming = 0;
  try {
    history.replaceState(null, "", `#${placeText()}`);
    history.pushState(null, "", `#${placeText()}`);
  } catch {
    nameAddress();
  }
}
export function placeText() {
  const { run, frame, life } = page, words = new URLSearchParams({ line: run.lineNumbers.at(run.position) });
  if (frame >= 0) words.set("frame", frame);
  if (page.cpu) words.set("cpu", page.cpu);
  if (life) words.set("group", life.path);
  if (life && run.lives.some(other => other !== life && other.path === life.path)) words.set("life", life.index);
  words.set("theme", document.documentElement.dataset.theme);
  if (panelSizes.size) words.set("panels", sizesText());
  return words.toString().replaceAll("%2F", "/");
}
