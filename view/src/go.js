// Going to a line, and lighting a group or CPU

import { rememberPlace } from "./address.js";
import { draw } from "./draw.js";
import { killWords } from "./explain.js";
import { frameWords, historyOf } from "./frames.js";
import { answeredBy, askedBy, nameOf } from "./line.js";
import { indexIn } from "./numbers.js";
import { byId, page } from "./page.js";
import { actingCpu, showRows } from "./script.js";
import { FIRST_GROUP_LIST, UNIT, cpuList, groupOf } from "./state.js";
import { spaced } from "./words.js";
import { showFrames } from "./zone.js";

export function go(position) {
  const run = page.run;
  if (!run) return;
  run.goto(Math.max(0, Math.min(run.lines, position)));
  const [from, until] = page.view, half = (until - from) / 2;
  if (run.position < from || run.position > until)
    page.view = [0, 2 * half].map(at => at + Math.max(0, Math.min(run.position - half, run.lines - 2 * half)));
  showRows();
  draw();
  say();
}

/** Goes to another place from a link or a key that finds one: the browser's Back returns from there. */
export function jump(position) {
  if (!page.run || position === page.run.position) return;
  rememberPlace();
  go(position);
}
export function pick(frame) {
  const [first, count] = page.zone;
  if (frame >= 0 && (frame < first || frame >= first + count)) showFrames(frame, count);
  page.frame = frame;
  page.history = frame < 0 ? [] : historyOf(page.run, frame);
  byId("frame-number").value = frame < 0 ? "" : frame;
  draw();
  say();
}

/** Lights a group with all below it, or a CPU, or nothing. */
export function light(life, cpu = 0) {
  Object.assign(page, { life, cpu });
  draw();
  if (page.run) showCpu(cpu || actingCpu(page.run));
}
/** Scrolls to a CPU's row, if it isn't wholly in sight. */
export function showCpu(cpu) {
  const box = byId("cpus-box"), row = byId("cpus").children[cpu - 1], top = row?.offsetTop ?? 0;
  if (row && (top < box.scrollTop + row.offsetHeight || top + 2 * row.offsetHeight > box.scrollTop + box.clientHeight))
    box.scrollTop = top - box.clientHeight / 2;
}
/** The lives of the lit group and of those below it in its time; null if none is lit. */
export function litLives(run) {
  if (page.life && page.lit?.life !== page.life) page.lit = { life: page.life, lives: livesBelow(run, page.life) };
  return page.life && page.lit.lives;
}
function livesBelow(run, life) {
  const prefix = life.path === "/" ? "/" : `${life.path}/`, isIn = ({ path, from, until = Infinity }) =>
    path.startsWith(prefix) && from <= (life.until ?? Infinity) && until >= life.from;
  return new Set(run.lives.filter(each => each === life || isIn(each)));
}
/** The numbers of the lit groups that are there, or what the lit CPU has; null if nothing is lit. */
export function litNow() {
  const { run, cpu } = page, lives = litLives(run);
  if (cpu) return { of: `CPU ${cpu}`, has: holdingsOf(run, cpu).names };
  return lives && { of: nameOf(run, page.life),
    groups: new Set(run.groups().filter(group => lives.has(run.life(group)))) };
}
/** Whether a block is drawn pale, since others are lit. */
export const isPaleIn = (lit, first, place) => lit !== null &&
  !(lit.has ? lit.has.has(first) : place >= UNIT && lit.groups.has(groupOf(place)));
/** The frames of each CPU's lists, in order. */
function cpuLists(run) {
  return run.here("lists", () => {
    const lists = Array.from({ length: FIRST_GROUP_LIST }, () => []), { cells, LIST, SEQUENCE, frames } = run;
    for (let at = LIST; at < LIST + frames; at++)
      if (cells[at] > 0 && cells[at] < FIRST_GROUP_LIST) lists[cells[at]].push(at - LIST);
    for (const list of lists) list.sort((a, b) => cells[SEQUENCE + a] - cells[SEQUENCE + b]);
    return lists;
  });
}
/** What a CPU has: the frames of each list in order, its pins, and of each such frame a name. */
export function holdingsOf(run, cpu) {
  return run.here(`cpu ${cpu}`, () => {
    const kinds = ["l", "n", "b"].map(kind => cpuList(kind, cpu)), names = new Map();
    const lists = kinds.some(list => run.listLength(list)) ? kinds.map(list => cpuLists(run)[list]) : [[], [], []];
    const pins = run.pinNames.map(([its, head], at) => its === cpu ? [head, run.get(run.PINS + at)] : [head, 0]).filter(
      ([, count]) => count);
    for (const [head] of pins) names.set(head, "pinned");
    lists.forEach((list, at) => list.forEach((frame, rank) => names.set(frame, [`${rank + 1}.`, "fresh", "back"][at])));
    return { lists, pins, names };
  });
}
export function goNext(positions, forward, none) {
  const { position: here } = page.run,
    position = positions[forward ? indexIn(positions, here) + 1 : indexIn(positions, here - 1)];
  if (position === undefined) tell(none);
  else jump(position);
}
/** Says it to those who can see the page, and to those who can't. */
export const tell = text => byId("live").textContent = byId("told").textContent = text;
// Where a key leads, and what there is none of.
export const WAYS = {
  k: ["kill", () => page.ways.kill],
  r: ["refusal", () => page.ways.refused],
  m: ["limit without room", () => page.ways.max], // also memory.high, and one that was set below the usage
  l: ["reclaim", () => page.ways.reclaim],
  e: ["event in the table", () => page.shownAt],
  d: ["difference", () => page.differs],
  c: ["change of the frame", () => page.history.map(([position]) => position)]
};
export function goWay(key, forward) {
  const [what, positions] = WAYS[key];
  if (key === "c" && page.frame < 0) return tell("pick a frame first");
  goNext(positions(), forward, `no ${forward ? "later" : "earlier"} ${what}`);
}
export const goLock = forward => page.cpu ? goNext(page.run.locks[page.cpu], forward,
  `CPU ${page.cpu} took no lock ${forward ? "later" : "earlier"}`) : tell("light a CPU first");
const LINES_A_SECOND = 8; // while it plays
export function play() {
  if (page.playing || !page.run) return stop();
  byId("play").textContent = "Pause";
  if (page.run.position === page.run.lines) go(0);
  const perSecond = matchMedia("(prefers-reduced-motion: reduce)").matches ? 1 : LINES_A_SECOND;
  page.playing = setInterval(() => page.run.position < page.run.lines ? go(page.run.position + 1) : stop(),
    1000 / perSecond);
}

export function stop() {
  if (page.playing) {
    clearInterval(page.playing);
    page.playing = 0;
    say();
  }
  byId("play").textContent = "Play";
}

/** Who is killed at the line that is shown. */
function killedWords(run) {
  const kills = run.eventsAt(run.position).filter(({ kind }) => kind === "kill").map(
    event => `${event.life ? nameOf(run, event.life) : "a group"} is killed${spaced(killWords(run, event))}`);
  return kills.length ? ` ${kills.slice(0, 3).join("; ")}${kills.length > 3 ? `; and ${kills.length - 3} more` : ""}.` :
    "";
}
/** For those who can't see the page: the line and the frame picked. While it plays nothing is said. */
function say() {
  if (page.playing) return;
  const run = page.run, line = run.line(run.position);
  const said = line ?
    `Line ${line.line}: ${askedBy(line)} ${answeredBy(line) ||
    `Answer: ${line.answer.slice(0, 200)}`}${killedWords(run)}` :
    "Before the first line: all frames are free.";
  byId("live").textContent = said + (page.frame < 0 ? "" :
    ` Frame ${page.frame}: ${frameWords(run, page.frame).join(", ")}.`);
}
