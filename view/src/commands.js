// What a log of memcg says beside its steps: the commands, and what they are answered

import {
  DIRTY, MARKED, MOST_LINE, MOST_NUMBER, PAGE, UNIT, groupList, groupOf, isGroupList, orderOf
} from "./state.js";

// The refusals: of each number its name, and the sentence that explains it.
export const REFUSALS = { 1: ["NoParent", "the parent group is not there"], 2: ["Exists", "the group is there already"],
  3: ["BadName", "the path is malformed or that of the root"], 4: ["TreeFull", "there is no room for one more group"],
  5: ["TooDeep", "the path has more than 8 names"], 6: ["NoGroup", "the group is not there"],
  7: ["HasChildren", "the group has children"],
  8: ["Busy", "the group still has pages"], 9: ["PinsFull", "the CPU holds too many references"],
  10: ["NoFile", "the group has no such file"],
  11: ["ReadOnly", "the file cannot be written"], 12: ["BadLimit", "the text is no limit"],
  13: ["BadNumber", "the limit is too great a number"],
  15: ["OverLimit", "the charge goes over the limit of a group"],
  16: ["NoFrames", "the zone has no free block that is great enough"],
  17: ["Again", "fewer pages were given back than asked"], 18: ["Killed", "the group was killed"],
  19: ["BadOrder", "the order is above 10"],
  20: ["NotKept", "the frame is not the head of a kept unit"],
  21: ["NotPinned", "the CPU holds no reference on the frame"],
  22: ["WriteOnly", "the file cannot be read"] };
// What the line that explains refusal 12 says beside the sentence.
export const VALUES =
  "memory.max, memory.high, memory.low, memory.min and memory.reclaim take whole bytes, with K M G T P E, " +
  "all but the last also max; memory.oom.group takes 0 or 1";
export const refused = (number, path = "") => `refused ${number} ${REFUSALS[number][0]}${path && ` ${path}`}`;
export const FILES = { "memory.current": "r", "memory.max": "rw", "memory.high": "rw", "memory.low": "rw",
  "memory.min": "rw", "memory.peak": "r",
  "memory.events": "r", "memory.events.local": "r", "memory.oom.group": "rw", "memory.reclaim": "w",
  "memory.stat": "r" };
// The files that are written without a step. A group has their value by the name's last word.
export const SETTINGS = ["memory.high", "memory.low", "memory.min"];
export const settingOf = file => file.slice("memory.".length);
// The words of each command: p is a path, o an order, f a frame, g a group's number, n a file's name, v a value.
const COMMANDS = { mkdir: "p", rmdir: "p", write: "pnv", read: "pn", alloc: "po", fast: "g", release: "f", get: "f",
  put: "f",
  settle: "", touch: "f", dirty: "f", clean: "f", owner: "f", blocks: "", show: "", stock: "", units: "p" };
export const MOST_ROUNDS = 16, MOST_DETAILS = 1024;
export const SECONDS = /^# ([0-9]+(?:\.[0-9]+)?) s$/; // a sample of `tools/whatif`
/** Whether a text has a digit there: asked before a form is tried on each line. */
export const isDigit = (text, at) => text.charCodeAt(at) >= 48 && text.charCodeAt(at) <= 57;
export const CUT = "the comment of this line is cut, so that nobody can say what it asks for";

const SIZES = new RegExp("^# memcg batch ([1-9][0-9]?) high ([1-9][0-9]{0,2}) stock ([1-9][0-9]?)" +
  "( reclaim-batch ([1-9][0-9]?))?( no-kill)?( proportional)?$");
/** The sizes that the second line of a log of memcg has; null if it has none that `replay` takes. */
export function sizesOf(text) {
  const found = SIZES.exec(text) ?? [];
  const [batch, high, stock] = found.slice(1, 4).map(Number), reclaimBatch = Number(found[5] ?? 1),
    isNoKill = found[6] !== undefined, isProportional = found[7] !== undefined;
  return batch <= 64 && batch <= high && high <= 256 && stock <= 64 && reclaimBatch <= 64 ?
    { batch, high, stock, reclaimBatch, isNoKill, isProportional } : null;
}
/** The sizes and choices of a boot in words, but for the choices that a boot without any doesn't make. */
export function sizesWords({ batch, high, stock, reclaimBatch, isNoKill, isProportional }) {
  return `batch ${batch}, high ${high}, stock ${stock}${reclaimBatch > 1 ? `, reclaim batch ${reclaimBatch}` :
    ""}${isNoKill ? ", no kills" : ""}${isProportional ? ", proportional" : ""}`;
}
/** The words of a command: the value of a write is all that follows. */
export function wordsOf(command) {
  const words = command.split(" ");
  return words[0] === "write" ? [...words.slice(0, 3), words.slice(3).join(" ")] : words;
}
/** An amount or limit in pages; -1 for no limit; null for what the files refuse with 12, undefined with 13. */
export function pagesOf(text, mayBeMax) {
  const word = text.replace(/^[ \t-\r]+|[ \t-\r]+$/g, ""), parts = /^([0-9]+)([KMGTPE]?)$/i.exec(word);
  if (mayBeMax && word === "max") return -1;
  if (!parts) return null;
  const bytes = BigInt(parts[1]) * 1024n ** BigInt(" KMGTPE".indexOf(parts[2].toUpperCase() || " "));
  if (bytes >= 2n ** 64n) return undefined;
  const pages = Number((bytes + 4095n) / 4096n);
  return mayBeMax && pages > MOST_NUMBER ? -1 : pages;
}
/** What a comment `# line N: P COMMAND` says, or null if no line of a script for these sizes is so. */
export function lineOf(text, { frames, cpus, mostGroups }) {
  const found = /^# line ([0-9]{1,7}): ([0-9]+) (.*)$/s.exec(text);
  if (!found) return null;
  const isCut = text.length === MOST_LINE, [verb, ...words] = wordsOf(found[3]), kinds = COMMANDS[verb];
  const line = { number: Number(found[1]), cpu: Number(found[2]), command: found[3], verb, words, isCut,
    isVague: isCut || verb === "write" && words.at(-1).includes("?") };
  if (line.cpu < 1 || line.cpu > cpus || !Object.hasOwn(COMMANDS, verb)) return null;
  const most = { o: MOST_NUMBER, f: frames - 1, g: mostGroups - 1 };
  const fits = words.length === kinds.length && words.every((word, at) => kinds[at] in most ? /^[0-9]+$/.test(word) &&
    Number(word) <= most[kinds[at]] : kinds[at] === "v" || word !== "");
  return fits || isCut ? line : null;
}

// What commands that only look are answered

/** Whether a frame is a unit, and not one of a CPU's list. */
export const isGroupUnit = (state, frame) => frame < state.frames && state.isHead(frame);
/** The place of a frame as `owner` and `show` write it: a fresh frame is its CPU's. */
export function ownerOf(state, frame) {
  const head = state.headOf(frame), place = head < 0 ? 0 : state.place[head], list = head < 0 ? 0 : state.list[head];
  if (!place) return "free";
  if (place < UNIT) return `cpu ${place}`;
  return list % 3 === 2 && !isGroupList(list) ? `cpu ${Math.ceil(list / 3)}` : state.path(groupOf(place));
}
export function shownBy(state) {
  const lines = [], groups = state.groups.filter(group => group && group.number).sort((a, b) => a.birth - b.birth);
  let first = 0, place = ownerOf(state, 0);
  for (let frame = 1; frame <= state.frames; frame++) {
    const here = frame < state.frames ? ownerOf(state, frame) : "";
    if (here === place) continue;
    lines.push(frame === first + 1 ? `${first} ${place}` : `${first}-${frame - 1} ${place}`);
    first = frame;
    place = here;
  }
  state.effort += state.frames;
  return [...lines, ...groups.map(group => `current ${group.path} ${group.current * PAGE}`)].join("\n");
}
export function blocksOf(state) {
  state.effort += 2 * state.frames;
  return [...state.freeBlocks()].map(block => block.join(":")).join(" ") || "none";
}
export function stockOf(state, cpu) {
  const { group, isDrained, pages, pinned } = state.parts[cpu], path = state.groups[group]?.path ?? "-";
  const stock = group < 0 ? "none" : isDrained ? `drained ${path}` : `${path} ${pages * PAGE}`;
  return `cpu ${cpu} stock ${stock} list ${state.count("l", cpu)} fresh ${state.count("n", cpu)} back ${state.count("b",
    cpu)} pins ${pinned}`;
}
export function unitsOf(state, group) {
  const lines = [];
  for (const name of ["inactive", "active"]) {
    for (const head of state.listed(groupList(group, name === "active"))) {
      const pins = state.pinsOn(head), flags = state.flags[head];
      lines.push(`${head} ${orderOf(state.place[head])} ${name}${flags & DIRTY ? " dirty" :
        ""}${flags & MARKED ? " marked" : ""}${pins ? ` pins ${pins}` : ""}`);
    }
  }
  return lines.join("\n") || "none";
}
/** memory.stat: the bytes of the units that the group and those below it keep. */
export function statOf(state, group) {
  const sums = { file: 0, file_dirty: 0, inactive_file: 0, active_file: 0 };
  for (const below of state.subtree(group)) {
    for (const name of ["inactive", "active"]) {
      for (const head of state.listed(groupList(below, name === "active"))) {
        const bytes = PAGE * 2 ** orderOf(state.place[head]);
        sums.file += bytes;
        sums[`${name}_file`] += bytes;
        if (state.flags[head] & DIRTY) sums.file_dirty += bytes;
        state.effort++;
      }
    }
  }
  return Object.entries(sums).map(([key, bytes]) => `${key} ${bytes}`).join("\n");
}
export function readOf(group, file) {
  const keys = [["low", "low"], ["high", "high"], ["max", "max"], ["oom", "oom"], ["oom_kill", "kill"],
    ["oom_group_kill", "group_kill"]];
  const events = at => keys.map(([key, event]) => `${key} ${group[`${event}_${at}`]}`).join("\n");
  switch (file) {
    case "memory.current":
      return `${group.current * PAGE}`;
    case "memory.peak":
      return `${group.peak * PAGE}`;
    case "memory.max":
    case "memory.high":
    case "memory.low":
    case "memory.min": {
      const pages = group[settingOf(file)];
      return pages < 0 ? "max" : `${pages * PAGE}`;
    }
    case "memory.oom.group":
      return `${group.oom_group}`;
    default:
      return events(file === "memory.events" ? "events" : "local");
  }
}
