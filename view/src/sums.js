// Who lost memory to whom: what was freed from each group, for whose limit and whose charge

import { amount, memoryText } from "./amounts.js";
import { jump, litLives } from "./go.js";
import { fill, isOther } from "./groups.js";
import { indexIn } from "./numbers.js";
import { byId, make, page } from "./page.js";
import { grouped, plural } from "./words.js";

const MOST_SUMS = 200; // rows
const CAUSES = { limit: path => `limit of ${path}`, high: path => `memory.high of ${path}`,
  asked: path => `asked of ${path}`,
  zone: () => "the zone's free frames", rmdir: path => `rmdir ${path}` };

/** The rows of the table, those with the most memory first. */
const sumsOf = run => run.sorted ??= [...run.sums.values()].sort(
  (a, b) => b.reclaimed + b.killed - a.reclaimed - a.killed);
export function drawSums() {
  const { run } = page, rows = sumsOf(run), lit = litLives(run),
    paths = lit && new Set([...lit].map(({ path }) => path));
  const shown = paths ? rows.filter(({ from, charge }) => paths.has(from) || paths.has(charge)) : rows;
  byId("sums-part").hidden = !rows.length;
  byId("sums-part").style.setProperty("--rows", `${Math.min(shown.length, 14)}`);
  if (!isOther(byId("sums"), run.index, shown.length, page.life?.index, page.unit)) return;
  const sum = shown.reduce((all, { reclaimed, killed }) => all + reclaimed + killed, 0);
  fill(byId("sums-said"), `${memoryText(sum)} freed${paths ? " from or for lit groups" : ""}`);
  byId("sums").replaceChildren(...shown.slice(0, MOST_SUMS).map(sumRow));
}
function sumRow({ from, what, of, charge, reclaimed, killed, positions }) {
  const cell = (textContent, className = "") => make("td", { className, textContent, title: textContent });
  const lines = make("button", { className: "link", textContent: grouped(positions.length),
    "aria-label": `${plural(positions.length, "line")}: go to the next one`, onclick: () => goAround(positions) });
  return make("tr", {}, cell(from, "left"), cell(CAUSES[what]?.(of) ?? what, "left"), cell(charge, "left"),
    cell(reclaimed ? amount(reclaimed) : "–"), cell(killed ? amount(killed) : "–"), make("td", {}, lines));
}
/** Goes to the next of these positions, after the last one to the first. */
const goAround = positions => jump(positions[indexIn(positions, page.run.position) + 1] ?? positions[0]);
