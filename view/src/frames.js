// A frame in words: what it is, and what became of it

import { ordinal } from "./line.js";
import { HELD_BY_ZONE, IN_HAND } from "./run.js";
import { DIRTY, MARKED, MOST_ORDER, UNIT, groupOf, isGroupList, orderOf } from "./state.js";
import { grouped, listed, plural } from "./words.js";

export const unitsText = heads => heads.length > 4 ? plural(heads.length, "unit") :
  `${heads.length === 1 ? "unit" : "units"} ${listed(heads.map(String))}`;

export function placeWords(run, first, last, place) {
  if (!place) return "free now";
  if (place < UNIT) return run.list(first) ? `free, on the list of CPU ${place}` : `in transit, lent to CPU ${place}`;
  const order = orderOf(place), units = (last - first + 1) / 2 ** order;
  return `charged to ${run.path(groupOf(place))}${order ?
    `, ${units === 1 ? "a unit" : `${units} units`} of order ${order}` : ""}`;
}

/** A frame in a sentence, by the state at hand. */
export function frameWords(run, frame) {
  const head = run.headOf(frame);
  if (head < 0) {
    let block = null;
    const from = frame & ~1023;
    run.walk(run.headOf(from) < 0 ? from : run.headOf(from), Math.min(run.frames, from + 1024),
      (first, size, place) => {
      if (!place && first <= frame && frame < first + size) block = [first, size];
    });
    return [`free${block && block[1] > 1 ? `, in the free block of ${block[1]} frames from ${block[0]}` : ""}`];
  }
  const place = run.cells[head];
  if (place < UNIT) return [run.list(head) ? `free, on the list of CPU ${place}` : `in transit, lent to CPU ${place}`];
  const list = run.list(head), flags = run.flags(head), pinners = run.pinners(head);
  const words = [
    `charged to ${run.path(groupOf(place))}${orderOf(place) ? `, in the unit of order ${orderOf(place)} from ${head}` :
    ""}`
  ];
  if (isGroupList(list)) words.push(list % 2 ? "inactive" : "active");
  else if (list)
    words.push(`${list % 3 === 2 ? "fresh at" : "waits to be freed at"} CPU ${Math.floor((list - 1) / 3) + 1}`);
  else words.push(flags & IN_HAND ? "in the zone's hand" : flags & HELD_BY_ZONE ? "in use" : "released");
  if (flags & DIRTY) words.push("dirty");
  if (flags & MARKED) words.push("marked");
  if (pinners.length) words.push(
    `pinned by ${listed(pinners.map(([cpu, pins]) => `CPU ${cpu}${pins > 1 ? ` (${pins} times)` : ""}`))}`);
  return words;
}

/** The place of a unit on its list, from the oldest. */
export function rankWords(run, frame) {
  const head = run.headOf(frame), list = head < 0 ? 0 : run.list(head);
  if (!list || run.listLength(list) < 2) return "";
  let older = 0;
  for (let other = 0; other < run.frames; other++)
    if (run.cells[run.LIST + other] === list && run.cells[run.SEQUENCE + other] < run.cells[run.SEQUENCE + head])
    older++;
  return `the ${older ? `${ordinal(older + 1)} ` : ""}oldest of the ${grouped(run.listLength(list))} on its list`;
}

/** Of a line that reclaims: why it freed the unit of this frame, or why not. The state is that after the line. */
export function whyWords(run, frame) {
  const { position } = run, notes = run.line(position)?.notes ?? [];
  if (!notes.some(note => note.startsWith("# round "))) return "";
  const isFreed = notes.some(note => {
    const [, first, last] = /^# reclaimed \/\S* (\d+)(?:-(\d+))?$/.exec(note) ?? [];
    return first && Number(first) <= frame && frame <= Number(last ?? first);
  });
  run.goto(position - 1);
  const words = isFreed ? turnWords(run, run.headOf(frame)) : sparedWords(run, run.headOf(frame), notes);
  run.goto(position);
  return words;
}
/** The units that are older than this one on its list. */
function olderThan(run, head) {
  const list = run.list(head), { cells, LIST, SEQUENCE, frames } = run, older = [];
  for (let other = 0; list && other < frames; other++)
    if (cells[LIST + other] === list && cells[SEQUENCE + other] < cells[SEQUENCE + head]) older.push(other);
  return older;
}
const isActive = (run, head) => isGroupList(run.list(head)) && run.list(head) % 2 === 0;
/** Why a unit had its turn: those before it on its list were passed over. */
function turnWords(run, head) {
  if (head < 0 || !run.isKept(head)) return "Reclaimed: it became a kept unit on this line, clean and without a pin.";
  const older = olderThan(run, head), dirty = older.filter(each => run.flags(each) & DIRTY).length,
    pinned = older.filter(each => !(run.flags(each) & DIRTY) && run.pinsOn(each)).length;
  const marked = older.filter(each => !(run.flags(each) & DIRTY) && !run.pinsOn(each) && run.flags(each) & MARKED)
    .length, free = older.length - dirty - pinned - marked;
  const passed = [[dirty, "dirty"], [pinned, "pinned"], [marked, "marked"], [free, "reclaimed before it"]].filter(
    ([count]) => count).map(([count, what]) => `${count} ${what}`);
  return `Reclaimed: the ${isActive(run, head) ? "oldest active" :
    "oldest inactive"} unit of ${run.path(
    groupOf(run.cells[head]))} that may be freed: clean and without a pin.${passed.length ?
    ` Older ones: ${listed(passed)}.` : ""}`;
}
/** Why a unit wasn't reclaimed: the first reason that holds. */
function sparedWords(run, head, notes) {
  const place = head < 0 ? 0 : run.cells[head], path = place >= UNIT ? run.path(groupOf(place)) : "",
    pinners = head < 0 ? [] : run.pinners(head);
  const tops = notes.map(note => /^# (?:limit|high|asked) (\S+)|^# zone/.exec(note)).filter(Boolean).map(
    found => found[1] ?? "/");
  const isBelow = tops.some(top => top === "/" || path === top || path.startsWith(`${top}/`)),
    count = head < 0 ? 0 : olderThan(run, head).length;
  if (place < UNIT) return place ? "Not reclaimed: it was on a CPU's list, charged to nobody." :
    "Not reclaimed: it was free.";
  const why = run.flags(head) & DIRTY ? "it is dirty" :
    pinners.length ? `CPU ${pinners[0][0]} has a pin on it` : !run.isKept(head) ? "it wasn't a kept unit yet" :
    tops.length && !isBelow ? `${path} isn't below ${listed([...new Set(tops)])}` :
    notes.some(note => note.startsWith(`# spared ${path} `)) ? `memory.min or memory.low protects ${path}` :
    run.flags(head) & MARKED ? "it was used: the mark spares it once" :
    isActive(run, head) ? "it is active: inactive units come first" :
    count ? `${plural(count, "older unit")} of its list ${count === 1 ? "comes" : "come"} first, and enough was freed` :
    "enough was freed before its turn";
  return `Not reclaimed: ${why}.`;
}
/** All that ever happened to a frame: positions, and what is so since then. The run is left where it is. */
export function historyOf(run, frame, most = 2000) {
  const cells = new Set(), here = run.position;
  /** @type {any} */
  const history = [];
  for (let order = 0; order <= MOST_ORDER; order++) {
    const head = frame & ~(2 ** order - 1);
    for (const cell of [head, run.LIST + head, run.FLAGS + head]) cells.add(cell);
    for (const [, cell] of run.pinsAt.get(head) ?? []) cells.add(cell);
  }
  const positions = [];
  for (let position = 1; position <= run.lines; position++)
    for (let at = run.starts.at(position); at < run.starts.at(position + 1); at++)
      if (cells.has(run.logCell.items[at])) {
        positions.push(position);
        break;
      }
  let before = ["free"], owner = null;
  for (const position of positions.slice(0, most)) {
    run.goto(position);
    const words = historyWords(run, frame), head = run.headOf(frame), place = head < 0 ? 0 : run.cells[head];
    if (words.join() !== before.join())
      history.push([position, (words.filter(word => !before.includes(word)).join(", ") ||
      `no longer ${listed(before.filter(word => !words.includes(word)))}`) +
      (owner !== null && place < UNIT ? freedWords(run, frame, owner) : "")]);
    [before, owner] = [words, place >= UNIT ? run.path(groupOf(place)) : null];
  }
  run.goto(here);
  history.rest = Math.max(0, positions.length - most);
  return history;
}
/** Why this position freed a frame of a group. */
function freedWords(run, frame, owner) {
  const { command, cpu, notes, isEnd, isStep } = run.line(run.position), round = notes.findIndex(note => {
    const [, path, first, last] = /^# reclaimed (\S+) (\d+)(?:-(\d+))?$/.exec(note) ?? [];
    return path === owner && first <= frame && frame <= Number(last ?? first);
  });
  const cause = notes.slice(0, Math.max(0, round)).findLast(note => /^# (limit|high|asked|zone) /.test(note)),
    [, kind, of] = (cause ?? "").split(" ");
  if (round >= 0)
    return { limit: `: reclaimed for the limit of ${of}`, high: `: reclaimed for memory.high of ${of}`,
    asked: `: reclaimed, as was asked of ${of}`, zone: ": reclaimed, since the zone had too few free frames" }[kind] ??
    `: reclaimed by ${command}`;
  if (notes.some(note => note.startsWith(`# killed ${owner} `))) return `: killed with ${owner}`;
  return isEnd ? ": given back at the end" : isStep ? `: ${command}` : `: by ${command} of CPU ${cpu}`;
}
/** A free block's size changes with its neighbours: that is no history of the frame. */
const historyWords = (run, frame) => run.headOf(frame) < 0 ? ["free"] : frameWords(run, frame);
