// The groups, with those that were removed

import { amount, boundText, memoryText, unitName } from "./amounts.js";
import { drawBar, drawSwatch, prepaidPages } from "./bars.js";
import { jump, light } from "./go.js";
import { nameOf, ordinal } from "./line.js";
import { indexAt, indexIn, startOf } from "./numbers.js";
import { byId, keepFocus, make, page } from "./page.js";
import { colors, styles } from "./paint.js";
import { grouped, listed, plural } from "./words.js";

/** The events that the table counts. */
const COUNTED = ["low", "high", "max", "oom", "kill"];
/** The groups in the order that is chosen: as a tree, or those with the most, or nearest to their limit, first. */
function sortedGroups(run) {
  const words = byId("sought-group").value.trim().toLowerCase(), sort = byId("sort").value,
    usage = group => run.row(group, "current"), max = group => run.row(group, "max");
  const nearness = group => max(group) < 0 ? -1 : usage(group) / Math.max(1, max(group)) + (max(group) ? 0 : 1);
  const found = words ? page.tree.filter(group => run.path(group).toLowerCase().includes(words)) : page.tree;
  return sort === "tree" ? found :
    [...found].sort((a, b) => sort === "limit" && nearness(b) - nearness(a) || usage(b) - usage(a));
}
/** The groups in the order of a tree. */
function treeOf(run) {
  return run.groups().map(group => [group, run.path(group).split("/")]).sort(([, a], [, b]) => {
    for (let at = 0;; at++) {
      if (a[at] === undefined || b[at] === undefined) return a.length - b.length;
      if (a[at] !== b[at]) return a[at] < b[at] ? -1 : 1;
    }
  }).map(([group]) => group);
}

/**
 * The limit of a group, and if it has them, memory.high and memory.low after the signs of their events, and memory.min.
 */
export function boundsText(run, group) {
  const [max, high, low, min] = ["max", "high", "low", "min"].map(row => run.row(group, row));
  return `${boundText(max)}${high < 0 ? "" : ` △${boundText(high)}`}${low ? ` ▽${boundText(low)}` :
    ""}${min ? ` ≥${boundText(min)}` : ""}`;
}
function leastLimit(run, group) {
  let least = -1;
  for (const above of run.up(group)) {
    const max = run.row(above, "max");
    if (max >= 0 && (least < 0 || max < least)) least = max;
  }
  return least;
}

const GROUP_HEIGHT = 27, MOST_ROWS = 24; // pixels of a row; of more groups only the rows in sight are in the page
export function drawGroups() {
  const run = page.run, lives = run.groups().map(group => run.cells[run.LIFE + group]).join();
  if (lives !== page.livesKey) Object.assign(page, { livesKey: lives, tree: treeOf(run) });
  const sorted = sortedGroups(run), [first, end] = rowsInSight(sorted.length), shown = sorted.slice(first, end),
    there = [byId("sort").value, first, sorted.length, ...shown].join();
  const body = byId("groups"), changed = run.position ? run.changes().groups : new Map(), prepaid = prepaidPages(run);
  if (there !== page.shownGroups || lives !== page.shownLives) {
    const focused = body.contains(document.activeElement) ?
      Number(/** @type {any} */ (document.activeElement).dataset.group) : null,
      gap = rows => rows ? [make("tr", { className: "gap", style: `height: ${rows * GROUP_HEIGHT}px` })] : [];
    body.replaceChildren(...gap(first), ...shown.map(group => groupRow(run, group)), ...gap(sorted.length - end));
    Object.assign(page, { shownGroups: there, shownLives: lives });
    if (focused !== null)
      (body.querySelector(`button[data-group="${focused}"]`) ?? body.querySelector("button"))?.focus();
  }
  shown.forEach((group, at) => fillRow(run, group, body.children[at + (first ? 1 : 0)],
    prepaid.get(group) ?? { sum: 0, by: [] }, changed.get(group)?.has("current") ?? false));
  fill(byId("unit"), `in ${unitName()}`);
  drawRemoved();
}
/** Which rows of so many are in sight, with some beside them. */
function rowsInSight(count) {
  if (count <= MOST_ROWS) return [0, count];
  const first = Math.max(0, Math.min(count - MOST_ROWS, Math.floor(page.groupsTop / GROUP_HEIGHT) - 4));
  return [first, Math.min(count, Math.max(first + MOST_ROWS,
    Math.ceil((page.groupsTop + page.groupsHeight) / GROUP_HEIGHT) + 4))];
}
const MOST_REMOVED = 50;
/**
 * The groups that were removed last before this line, with the lines that made and removed them. A button lights one,
 * with its events.
 */
function drawRemoved() {
  const { run } = page, box = byId("removed"), count = indexIn(run.removed, run.position, ({ until }) => until) + 1;
  box.hidden = byId("to-removed").hidden = !count;
  if (!isOther(box, run.lives.length, count, page.life?.index, page.unit, colors.theme)) return;
  const lives = run.removed.slice(Math.max(0, count - MOST_REMOVED), count), isCut = count > MOST_REMOVED;
  const lineOf = position => make("button", { textContent: `line ${run.lineNumbers.at(position)}`,
    onclick: () => jump(position) });
  fill(byId("to-removed"), `${grouped(count)} removed`);
  fill(box.firstElementChild,
    `${plural(count, "removed group")}${isCut ? `, the last ${MOST_REMOVED}` :
    ""}: ${listed(lives.slice(-3).map(life => nameOf(run, life)))}${count > 3 ? " ..." : ""}`);
  keepFocus(box.lastElementChild, () => box.lastElementChild.replaceChildren(...lives.reverse().map(life => {
    const canvas = make("canvas", { "aria-hidden": "true" }), isLit = page.life === life;
    drawSwatch(canvas, life.style);
    return make("li", {}, canvas, make("button",
      { textContent: nameOf(run, life), "aria-pressed": String(isLit), onclick: () => light(isLit ? null : life) }),
      " peak ", make("button", { textContent: memoryText(life.peaks.at(-1)),
      onclick: () => jump(peakAt(life, Infinity)) }), ", made on ", lineOf(life.from), ", removed on ",
      lineOf(life.until));
  })));
}

/** The position at which a group's usage was greatest, up to a position. */
export const peakAt = (life, position) => startOf(life.peaks, Math.max(0, indexAt(life.peaks, position)));
function groupRow(run, group) {
  const path = run.path(group), life = run.life(group), isTree = byId("sort").value === "tree",
    depth = path === "/" ? 0 : path.split("/").length - 1;
  const button = make("button",
    { textContent: path === "/" ? "/ (root)" : isTree ? path.slice(path.lastIndexOf("/")) : path, title: path,
    onclick: () => light(page.life === life ? null : life) });
  const name = make("td", { className: "left" }, button, make("span", { className: "tag" })),
    canvas = more => make("td", { className: `picture ${more}` }, make("canvas", { "aria-hidden": "true" }));
  const peak = make("td", {}, make("button", { className: "link", title: "to the line that reached it",
    onclick: () => jump(peakAt(life, page.run.position)) }));
  button.dataset.group = group;
  if (isTree) name.style.paddingLeft = `${4 + 8 * Math.max(0, depth - 1)}px`;
  return make("tr", {}, canvas(""), name, canvas("bar-cell"), ...Array.from({ length: 4 }, () => make("td")), peak,
    ...COUNTED.map(() => make("td")));
}
/** Sets words and class of an element, if they are others: the browser lays out again what is set. */
export function fill(element, text, className = "") {
  if (element.textContent !== text) element.textContent = text;
  if (element.className !== className) element.className = className;
}
/** Whether a row has to be filled, since what it shows isn't what it showed. */
export function isOther(row, ...shows) {
  const key = shows.join(" ");
  if (row.shows === key) return false;
  row.shows = key;
  return true;
}

function fillRow(run, group, row, prepaid, isChanged) {
  const [usage, peak, killed, isWhole, ...counts] =
    ["current", "peak", "killed", "oom_group", ...COUNTED.flatMap(event => [`${event}_local`, `${event}_events`])]
    .map(each => run.row(group, each));
  const bounds = boundsText(run, group), limit = leastLimit(run, group), own = run.cells[run.OWN + group],
    isLit = page.life === run.life(group);
  if (!isOther(row, usage, bounds, peak, killed, isWhole, counts, limit, own, prepaid.by, isChanged, isLit, page.unit,
    styles[group], colors.theme)) return;
  const [swatch, name, bar, ...cells] = row.children, [button, tag] = name.children;
  const { nth } = run.life(group), words = [...(nth > 1 ? [ordinal(nth)] : []), ...(killed ? ["killed"] : []),
    ...(isWhole ? ["oom.group"] : [])];
  drawSwatch(swatch.firstChild, styles[group]);
  drawBar(bar.firstChild, run, group, limit, prepaid.sum);
  row.className = killed ? "killed" : "";
  button.setAttribute("aria-pressed", String(isLit));
  button.setAttribute("aria-label", [run.path(group), ...words].join(", "));
  fill(tag, words.join(", "), "tag");
  fill(cells[4].firstChild, amount(peak), "link");
  cells[4].firstChild.setAttribute("aria-label", `peak of ${run.path(group)}, ${memoryText(peak)}: go to its line`);
  [amount(usage), amount(own), amount(prepaid.sum), bounds].forEach(
    (text, at) => fill(cells[at], text, !at && isChanged ? "changed" : text === "0" ? "zero" : ""));
  cells[2].title = prepaid.by.join(", ");
  for (let at = 0; at < COUNTED.length; at++) {
    const [local, all] = counts.slice(2 * at);
    fill(cells[5 + at], local === all ? `${all}` : `${local}+${all - local}`, all ? "" : "zero");
    cells[5 + at].title = `${local} at the group itself, ${all - local} below it`;
  }
}
