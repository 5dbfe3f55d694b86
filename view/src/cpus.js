// The CPUs

import { amount, memoryText } from "./amounts.js";
import { drawList, drawSwatch } from "./bars.js";
import { holdingsOf, jump, light, pick } from "./go.js";
import { fill, isOther } from "./groups.js";
import { listOf, paragraph } from "./line.js";
import { indexIn } from "./numbers.js";
import { byId, make, page } from "./page.js";
import { colors, styles } from "./paint.js";
import { actingCpu } from "./script.js";
import { cpuList } from "./state.js";
import { grouped, plural } from "./words.js";

export function makeCpus() {
  byId("cpus-part").hidden = page.run.cpus === 1;
  const canvas = () => make("canvas", { "aria-hidden": "true" });
  byId("cpus").replaceChildren(...Array.from({ length: page.run.cpus },
    (_, at) => make("tr", {}, make("td", {}, make("button",
    { textContent: at + 1, "data-cpu": at + 1, "aria-label": `CPU ${at + 1}`,
    "aria-pressed": "false", onclick: () => light(null, page.cpu === at + 1 ? 0 : at + 1) })),
    make("td", { className: "left" }, canvas(), make("span")), make("td", { className: "picture" }, canvas()),
    ...Array.from({ length: 4 }, () => make("td")))));
}

export function drawCpus() {
  const run = page.run, acting = actingCpu(run);
  let listed = 0, prepaid = 0;
  [...byId("cpus").children].forEach((row, at) => {
    const cpu = at + 1, pages = run.cells[run.STOCK_PAGES + cpu], group = run.cells[run.STOCK_GROUP + cpu],
      isActing = cpu === acting;
    const lengths = ["l", "n", "b"].map(kind => run.listLength(cpuList(kind, cpu))),
      pins = run.cells[run.CPU_PINS + cpu];
    const life = group < 0 ? null : run.life(group), path = life?.path ?? "removed";
    listed += lengths[0];
    prepaid += Math.max(0, pages);
    if (!isOther(row, pages, group, lengths, pins, life?.index, isActing, cpu === page.cpu, colors.theme)) return;
    const [name, stock, bar, ...counts] = row.children;
    name.firstChild.setAttribute("aria-pressed", String(cpu === page.cpu));
    row.className = isActing ? "acts" : "";
    if (isActing) row.setAttribute("aria-current", "true");
    else row.removeAttribute("aria-current");
    fill(stock.lastChild, group < 0 ? "–" : `${pages > 0 ? amount(pages) : "empty"} · ${path}`);
    stock.title = stockWords(run, cpu);
    stock.firstChild.hidden = !life;
    if (life) drawSwatch(stock.firstChild, styles[group]);
    drawList(bar.firstChild, run, lengths);
    [...lengths, pins].forEach((count, index) => fill(counts[index], `${count}`, count ? "" : "zero"));
  });
  fill(byId("cpus-said"), isAtEnd(run) ?
    `all given back at the end; line ${run.lineNumbers.at(run.position - 1)} has what they held` :
    `${plural(listed, "frame")} on lists · ${memoryText(prepaid)} prepaid; a button lights a CPU`);
  drawCpu();
}
/** What is in a CPU's stock. If nothing is, why. */
function stockWords(run, cpu) {
  const group = run.cells[run.STOCK_GROUP + cpu], pages = run.cells[run.STOCK_PAGES + cpu],
    path = run.life(group)?.path ?? "a removed group";
  return group < 0 ? "empty, never filled" : pages > 0 ? `${memoryText(pages)} of ${path}` :
    `empty, its pages of ${path} were ${pages < 0 ? "drained" : "spent"}`;
}
export const isAtEnd = run => run.position > 0 && run.position === run.lines && run.said(run.position).isEnd;
/** What a CPU had after the last line, before the end: each part in words and with its frames, or nothing. */
function heldWords(run, cpu) {
  const { lists, pins } = holdingsOf(run, cpu), pages = run.cells[run.STOCK_PAGES + cpu],
    some = list => list.slice(0, 8).join(", ") + (list.length > 8 ? ` and ${list.length - 8} more` : "");
  return [...(pages > 0 ? [stockWords(run, cpu)] : []),
    ...["on its list", "fresh", "back"].flatMap((name, at) => lists[at].length ? [`${name}: ${some(lists[at])}`] : []),
    ...(pins.length ? [`pins on ${some(pins.map(([head, count]) => count > 1 ? `${head} (${count} times)` : head))}`] :
    [])].join("; ");
}
/** At the end: what each CPU had before it gave all back. */
function heldBefore(run) {
  const last = run.position - 1, held = [];
  run.goto(last);
  for (let cpu = 1; cpu <= run.cpus; cpu++) {
    const words = heldWords(run, cpu);
    if (words) held.push([cpu, words]);
  }
  run.goto(last + 1);
  return held;
}
/** The end takes all from the CPUs: so what they had is said, and the line before leads there. */
export function heldOf(run) {
  if (!isAtEnd(run)) return [];
  const held = run.held ??= heldBefore(run), last = run.position - 1;
  return [make("p", { className: "inline" }, make("button",
    { textContent: `Show the state after line ${run.lineNumbers.at(last)}`, onclick: () => jump(last) }),
    ", before the end."),
    make("h4", { textContent: "What CPUs held then, and have given back" }),
    ...listOf("", "ul", held.length ? held.map(([cpu, words]) => make("li", { textContent: `CPU ${cpu}: ${words}.` })) :
    [make("li", { textContent: "No CPU held anything." })], 12).slice(1)];
}
/** What the lit CPU has, and the lines on which it took the lock. */
function drawCpu() {
  const { run, cpu } = page, box = byId("cpu");
  box.hidden = !cpu;
  if (!cpu) return;
  const { lists: [list, fresh, back], pins } = holdingsOf(run, cpu), locks = run.locks[cpu];
  const before = isAtEnd(run) ? (run.held ??= heldBefore(run)).find(([its]) => its === cpu)?.[1] ?? "nothing" : "";
  const frames = (title, heads, saidOf = head => `${head}`) =>
    inlineOf(title, heads, head => [saidOf(head), () => pick(Array.isArray(head) ? head[0] : head)]);
  box.replaceChildren(
    ...(before ?
    [paragraph("inline",
    `CPU ${cpu} before the end, after line ${run.lineNumbers.at(run.position - 1)}: ${before}. At the end:`)] : []),
    paragraph("inline", `CPU ${cpu}: its stock is ${stockWords(run, cpu)}.`), frames("List, the next one first", list),
    frames("Fresh, the oldest first", fresh),
    frames("Back, freed when it settles", back),
    frames("Pins on", pins, ([head, count]) => count > 1 ? `${head} (${count} times)` : `${head}`),
    inlineOf(`Took the lock on ${plural(locks.length, "line")} (keys p and P)`, locks,
    position => [`${run.lineNumbers.at(position)}`, () => jump(position)],
      Math.max(0, indexIn(locks, run.position) - 9)));
}
/**
 * Buttons in a row under a title, each with its text and what it does: 20 from this one on, and what opens the rest.
 */
export function inlineOf(title, items, buttonOf, from = 0) {
  const line = make("p", { className: "inline" }, `${title}: ${items.length ? "" : "none"}`), add = (first, count) => {
    const buttons = items.slice(first, first + count).map(buttonOf).map(
      ([textContent, onclick]) => make("button", { textContent, onclick }));
    line.append(...buttons.flatMap((button, at) => first + at > from ? [", ", button] : [button]));
    if (first + count < items.length)
      line.append(" ", more(items.length - first - count, () => add(first + count, 2000)));
  };
  if (from > 0) line.append(more(from, () => line.replaceWith(inlineOf(title, items, buttonOf)), "before"));
  add(from, 20);
  return line;
}
export const more = (count, open, word = "more") =>
  make("button", { textContent: `and ${grouped(count)} ${word}`, onclick: event => {
  event.target.remove();
  open();
} });
