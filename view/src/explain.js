import { inPages, memoryOf, memoryText } from "./amounts.js";
import { answeredBy } from "./line.js";
import { capital, framesText, listed, plural } from "./words.js";

/** How much of a usage is protected. */
function protectedText(usage, ...those) {
  const [min, low] = those.map(bytes => Number(bytes) < Number(usage) ? `${memoryOf(bytes)}` : "all");
  return `of ${memoryOf(usage)}, memory.min protects ${min} and memory.low ${low}`;
}
// The lines of an explanation, and what each says. Of a round that freed nothing, `dirty` says how many units are
// dirty.
/** @type {[RegExp, (...found: any[]) => string][]} */
const EXPLAINED = [
  [/^# limit (\S+) (\d+) usage (\d+) need (\d+)$/, (path, max, usage, need) => Number(need) ?
    `The limit of ${path} is ${memoryOf(max)}, and its usage ${memoryOf(usage)}. There is no room for ${memoryOf(
    need)} more.` :
    `The new limit of ${path} is ${memoryOf(max)}, and its usage is ${memoryOf(usage)}.`],
  [/^# high (\S+) (\d+) usage (\d+) need (\d+)$/, (path, high, usage, need) => Number(need) ?
    `With ${memoryOf(need)} more, the usage of ${path} would be above memory.high: ${memoryOf(usage)} and ${memoryOf(
    need)} are more than ${memoryOf(high)}.` :
    `The new memory.high of ${path} is ${memoryOf(high)}, and its usage is ${memoryOf(usage)}.`],
  [/^# stock (\d+) bytes (\d+) usage/, (cpu, bytes) =>
  `The stock of CPU ${cpu} is drained: ${memoryOf(bytes)} of prepaid pages less charged.`],
  [/^# asked (\S+) (\d+)$/, (path, bytes) => `${memoryOf(bytes)} of ${path} and below are to be reclaimed.`],
  [/^# zone order (\d+)$/,
  order => Number(order) ? `The zone has no free block of ${2 ** order} frames. Reclaim from all groups.` :
    "The zone has no free frame. Reclaim from all groups."],
  [/^# spared (\S+) usage (\d+) min (\d+) low (\d+)$/,
  (path, usage, min, low) => `Reclaim spares pages of ${path}: ${protectedText(usage, min, low)}.`],
  [/^# low (\S+) usage (\d+) min (\d+) low (\d+)$/,
  (path, usage, min, low) =>
  `▽ It found too little, so it takes what memory.low protects of ${path}: ${protectedText(usage, min, low)}.`],
  [/^# reclaimed (\d+) more frames$/,
  frames => `${plural(Number(frames), "more frame")} ${frames === "1" ? "was" : "were"} reclaimed.`],
  [/^# reclaimed (\S+) (\d+)(?:-(\d+))?$/, (path, first, last) =>
  `${capital(framesText(Number(first), Number(last ?? first)))} of ${path} ${last ? "are" :
  "is"} freed: clean and without a pin.`],
  [/^# round (\d+) tried \d+ missed (\d+) returned (\d+) bytes (\d+) usage (\d+)$/,
  (round, missed, freed, bytes, usage, dirty) =>
    `Reclaim, round ${round}: ${Number(freed) ? `${plural(Number(freed), "unit")} freed (${memoryOf(bytes)})` :
    "nothing could be freed"}.${!Number(freed) && dirty ?
    ` ${plural(dirty, "unit")} ${dirty === 1 ? "is" : "are"} dirty.` :
    ""}${Number(missed) ?
    ` Pins made ${plural(Number(missed), "try", "tries")} fail${missed === "1" ? "" : ", some perhaps at one unit"}.` :
    ""} The usage is then ${memoryOf(usage)}.`],
  [/^# oom (\S+)$/, path => `Reclaim wasn't enough: out of memory at ${path}. A group has to die.`],
  [/^# victim (\S+) frames (\d+) of (\d+) candidates(?:, next (\S+) frames (\d+))?$/,
  (path, frames, count, next, others) =>
    `The victim is ${path}: it has ${plural(Number(frames),
    "frame")}, ${next ? `the most of ${count} groups that may die. The next would be ${next} with ${others}.` :
    "and no other group may die."}`],
  [/^# group (\S+) groups (\d+)$/, (path, count) =>
  `${path} is killed as a whole (memory.oom.group is 1): ${plural(Number(count), "group")} ${count === "1" ? "dies" :
  "die"}.`],
  [/^# killed (\S+) returned (\d+) bytes (\d+) pinned (\d+) bytes (\d+) usage (\d+)$/,
  (path, freed, bytes, pinned, held, usage) =>
    `◆ ${path} is killed: ${plural(Number(freed), "unit")} freed (${memoryOf(bytes)})${Number(pinned) ?
    `, ${pinned} ${pinned === "1" ? "stays, since it is" : "stay, since they are"} pinned (${memoryOf(held)})` :
    ""}. The usage under the limit is then ${memoryOf(usage)}.`]
];
/** Whether no victim comes after this `# oom`: then no group was left that may die. */
export const isSpared = (notes, at) => /^# oom /.test(notes[at]) && !/^# victim /.test(notes[at + 1] ?? "");
export function noteWords(note, dirty, spared = false) {
  if (spared) return `Reclaim wasn't enough: out of memory at ${note.split(" ")[2]}. No group is left that may die.`;
  for (const [form, said] of EXPLAINED) {
    const found = form.exec(note);
    if (found) return said(...found.slice(1), dirty);
  }
  return note;
}

// Each kind of event: its sign, the colour, what it is, and in which row of the time line its sign is.
export const KINDS = {
  max: ["▲", "accent", "a limit had no room", "max"],
  high: ["△", "accent", "a charge would exceed memory.high", "max"],
  low: ["▽", "green", "memory.low was broken", "reclaim"],
  lowered: ["▼", "accent", "a limit or memory.high was set below the usage", "max"],
  drain: ["○", "green", "stocks were drained", "reclaim"],
  reclaim: ["●", "green", "units were reclaimed", "reclaim"],
  oom: ["■", "red", "out of memory", "oom"],
  kill: ["◆", "purple", "a group is killed", "kill"],
  refused: ["✕", "red", "refused", "refused"]
};
export const LANES = { max: "max ▲△▼", reclaim: "reclaim ●○▽", oom: "oom ■", kill: "kill ◆", refused: "refused ✕" };
const notesUpTo = (run, { position, note }) =>
  run.log.slice(run.behind.at(position), note).split("\n").slice(0, -1).filter(text => /^# (?!=|refused )/.test(text));
const notesIndex = (run, event) => notesUpTo(run, event).length;
/** The notes up to that of an event, from the limit or the wish that it is for. */
function notesBefore(run, event) {
  const notes = notesUpTo(run, event);
  return notes.slice(Math.max(0, notes.findLastIndex(text => /^# (limit|high|asked|zone) /.test(text))));
}
/** What stocks were drained or units reclaimed for. */
function purposeWords([first = ""], command) {
  const [, what, path] = /^# (limit|high|asked|zone) (\S+)/.exec(first) ?? [];
  return { limit: `for the limit of ${path}`, high: `for memory.high of ${path}`, asked: `as was asked of ${path}`,
    zone: "since the zone had too few free frames" }[what] ?? `by ${command}`;
}
/** What became of a killed group, by its note, and for which limit. */
export function killWords(run, event, isShort = false) {
  const [, path, , bytes, pinned, held] =
    /^# killed (\S+) returned (\d+) bytes (\d+) pinned (\d+) bytes (\d+)/.exec(run.textAt(event.note)) ?? [];
  const before = notesBefore(run, event),
    [, limited] = /^# oom (\S+)/.exec(before.findLast(text => /^# oom /.test(text)) ?? "") ?? [];
  const [, whole, count] = /^# group (\S+) groups (\d+)/.exec(
    before.findLast(text => /^# (group|oom) /.test(text)) ?? "") ?? [];
  if (!path) return "";
  if (isShort)
    return `${memoryOf(bytes)} freed, limit of ${limited}${Number(held) ? `; ${memoryOf(held)} still charged` :
    ""}${whole ? `; ${plural(Number(count), "group")} of ${whole} die${count === "1" ? "s" : ""} as a whole` : ""}`;
  return `for the limit of ${limited}: ${memoryOf(bytes)} freed${Number(pinned) || Number(held) ?
    `, ${memoryOf(held)} still charged` : ""}${whole && whole !== path ?
    `; dies with ${whole}, which is killed as a whole` :
    whole && Number(count) > 1 ? `; ${count} groups die as a whole` : ""}`;
}
/** Why an event happened, in a sentence. What matters most comes first. */
export function reasonWords(run, event, line) {
  const { kind, name, note } = event, text = note ? run.textAt(note) : "",
    numbers = (text.match(/ \d+/g) ?? []).map(Number);
  if (kind === "refused")
    return line.isStep ? name : `${name.split(" ")[1]}: ${answeredBy(line).replace(/^Refused: |\.$/g, "")}`;
  if (!text) return KINDS[kind][2];
  if (kind === "oom")
    return `reclaim wasn't enough${isSpared(line.notes, notesIndex(run, event)) ?
    ", and no group is left that may die" : ": a group has to die"}`;
  if (kind === "kill") return killWords(run, event, true) || KINDS.kill[2];
  const [one, two, three] = numbers.slice(["max", "high", "lowered", "low"].includes(kind) ? -3 : 0),
    isHigh = text.startsWith("# high ");
  if (kind === "max") return `no room for ${memoryOf(three)}: usage ${memoryOf(two)}, limit ${memoryOf(one)}`;
  if (kind === "high")
    return `${memoryOf(three)} more would exceed memory.high: usage ${memoryOf(two)}, memory.high ${memoryOf(one)}`;
  if (kind === "low") return `reclaim found too little elsewhere: ${protectedText(one, two, three)}`;
  if (kind === "lowered")
    return `new ${isHigh ? "memory.high" : "limit"} ${memoryOf(one)} is below the usage ${memoryOf(two)}`;
  const before = notesBefore(run, event), purpose = purposeWords(before, line.command);
  if (kind === "drain") return `${drainedText(run, event)} ${purpose}`;
  const from =
    [...new Set(before.slice(before.findLastIndex(text => /^# round /.test(text)) + 1).map(
    text => /^# reclaimed (\/\S*) /.exec(text)?.[1]).filter(Boolean))];
  return `${memoryOf(numbers[4])} (${plural(numbers[3], "unit")}) ${from.length ? `of ${listed(from)} ` :
    ""}freed ${purpose}`;
}
/** How many pages of which CPUs' stocks were drained, from the first such note of an event on. */
function drainedText(run, { position, note }) {
  const cpus = [];
  let pages = 0;
  for (let at = note, found; found = /^# stock (\d+) bytes (\d+)/.exec(run.textAt(at)); at +=
    run.textAt(at).length + 1) {
    if (Number(found[2])) cpus.push(found[1]);
    pages += inPages(found[2]);
  }
  return `${memoryText(pages)} of prepaid pages drained of the stock${cpus.length > 1 ? "s" :
    ""} of CPU${cpus.length > 1 ? "s" : ""} ${listed(cpus)}`;
}
/** Why an event happened, and by which command. */
export function causesOf(run, event) {
  const line = run.line(event.position);
  return [reasonWords(run, event, line), ` · ${line.command}`];
}
export const causeWords = (run, event) => causesOf(run, event).join("");
/** All that is said of an event, to be searched. */
export const eventText = (run, event) => event.text ??=
  [run.lineNumbers.at(event.position), event.life?.path, event.kind, event.name,
  causeWords(run, event), ...run.line(event.position).notes.flatMap(note => [note, noteWords(note)])].join(" ")
  .toLowerCase();
