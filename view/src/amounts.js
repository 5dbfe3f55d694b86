// Amounts of memory, in the unit that is chosen for all of the page

import { draw } from "./draw.js";
import { mostIn } from "./numbers.js";
import { page } from "./page.js";
import { PAGE } from "./state.js";
import { drawVerdict } from "./verdict.js";
import { grouped } from "./words.js";

/** @type {[string, number][]} The units, and how many of each a page is. */
const UNITS = [["KiB", 4], ["MiB", 1 / 256], ["pages", 1]];
const LEAST_MIB = 2560; // pages
/** The unit of a log at first: MiB, if its greatest usage has 10 or more, and each limit; else KiB. */
export function firstUnit(run) {
  const isSmall = (pages, at) => at % 2 === 1 && pages >= 0 && pages < LEAST_MIB;
  return mostIn(run.lives[0].peaks, [0, run.lines]) < LEAST_MIB ||
    run.lives.some(({ limits }) => limits.some(isSmall)) ? 0 : 1;
}
export const unitName = () => UNITS[page.unit][0];
export const amount = pages => grouped(pages * UNITS[page.unit][1]);
export const boundText = pages => pages < 0 ? "max" : amount(pages);
/** An amount with its unit: KiB in place of less than a tenth of a MiB. */
export function memoryText(pages) {
  const [name, factor] = UNITS[page.unit === 1 && pages && pages < 26 ? 0 : page.unit];
  return `${grouped(pages * factor)} ${pages === 1 && name === "pages" ? "page" : name}`;
}
export const inPages = bytes => Number(bytes) / PAGE;
export const memoryOf = bytes => memoryText(inPages(bytes));
export const limitText = (pages, none = "no limit") => pages < 0 ? none : memoryText(pages);
/** Shows all amounts in the next unit. What was said of them is said anew. */
export function nextUnit() {
  const { run } = page;
  page.unit = (page.unit + 1) % UNITS.length;
  if (!run) return;
  for (const event of run.events) event.cause = event.text = undefined;
  Object.assign(page, { eventsKey: null, timeX: null });
  run.verdict = null;
  drawVerdict();
  draw();
}
