// A line in plain words.

import { memoryOf, memoryText } from "./amounts.js";
import { REFUSALS, SETTINGS, pagesOf, wordsOf } from "./commands.js";
import { page } from "./page.js";
import { DEFAULT_GROUPS } from "./state.js";

const THOUSANDS = new Intl.NumberFormat("en"); // one for all: to make one takes longer than to draw a row
export const grouped = number => THOUSANDS.format(number);
export const plural = (count, one, many = one + "s") => `${grouped(count)} ${count === 1 ? one : many}`;
export const framesText = (first, last) => first === last ? `frame ${first}` :
  `frames ${first} ${last === first + 1 ? "and" : "to"} ${last}`;
export const listed = words => words.length < 2 ? words.join("") :
  `${words.slice(0, -1).join(", ")} and ${words.at(-1)}`;
/** The frames and CPUs of a run's zone, and how many groups it has at most, if that isn't the default. */
export const zoneWords = ({ frames, cpus, mostGroups }) => [plural(frames, "frame"), plural(cpus, "CPU"),
  ...mostGroups === DEFAULT_GROUPS ? [] : [`at most ${plural(mostGroups, "group")}`]];
export const spaced = text => text && ` ${text}`;
export const capital = text => text.charAt(0).toUpperCase() + text.slice(1);

const FAST_WORDS = {
  "list-empty": "its list is empty",
  "fresh-full": "it has 32 fresh frames",
  "no-stock": "its stock has no page left",
  drained: "its stock was drained",
  "other-group": "its stock is of another group"
};
const FILE_WORDS = {
  "memory.current": "the usage",
  "memory.max": "the limit",
  "memory.high": "the usage above which charges reclaim, memory.high",
  "memory.low": "the usage that reclaim spares while it finds pages elsewhere, memory.low",
  "memory.min": "the usage that reclaim spares, memory.min",
  "memory.peak": "the greatest usage so far",
  "memory.events": "the events at and below",
  "memory.events.local": "the events at the group alone of",
  "memory.oom.group": "whether it is killed as a whole:"
};

/** What the command asks for. */
export function askedWords(command) {
  const [verb, first, second, value] = wordsOf(command), order = Number(second);
  switch (verb) {
    case "mkdir":
      return `makes the group ${first}`;
    case "rmdir":
      return `removes the group ${first}, after freeing what it can`;
    case "read":
      return `reads ${second} of ${first}`;
    case "write":
      return second === "memory.max" ? (value.trim() === "max" ? `takes the limit off ${first}` :
          `sets the limit of ${first} to ${amountText(value)}`) :
        SETTINGS.includes(second) ? `sets ${second} of ${first} to ${amountText(value)}` :
        second === "memory.reclaim" ? `asks to reclaim ${amountText(value)} from ${first}` :
        second === "memory.oom.group" ? (value.trim() === "1" ?
          `wants ${first} to be killed as a whole, if a group in it has to die` : value.trim() === "0" ?
          `wants groups in ${first} to be killed one by one` : `writes ${second} of ${first}`) :
        `writes ${second} of ${first}`;
    case "alloc":
      return order === 0 ? `asks for a frame for ${first}` :
        `asks for a block of ${grouped(2 ** Math.min(order, 31))} frames for ${first}`;
    case "fast":
      return `asks for a frame for group ${first}${page.run.life(Number(first)) ? ` (${page.run.path(Number(first))})` :
      ""}, without the lock or not at all`;
    case "release":
      return `releases frame ${first}`;
    case "get":
      return `takes a pin on frame ${first}: a reference that keeps it`;
    case "put":
      return `puts its pin on frame ${first}`;
    case "settle":
      return "settles: its fresh frames become kept units, and units that it put last are freed";
    case "touch":
      return `uses frame ${first}`;
    case "dirty":
      return `makes frame ${first} dirty: reclaim must keep it`;
    case "clean":
      return `makes frame ${first} clean: reclaim may free it`;
    case "owner":
      return `asks who has frame ${first}`;
    case "blocks":
      return "asks for the free blocks";
    case "show":
      return "asks where all frames are";
    case "stock":
      return "asks what its stock and its lists have";
    case "units":
      return `asks for the kept units of ${first}`;
    default:
      return command;
  }
}

function amountText(value) {
  const pages = pagesOf(value, true);
  return pages === -1 ? "max" : pages === null || pages === undefined ? JSON.stringify(value) :
    memoryText(pages);
}

/** Of each command, what its answers mean. An answer of another form means nothing. */
const ANSWERED = {
  mkdir: [[/^group (\d+)$/, group => `The group has number ${group}.`]],
  rmdir: [[/^ok$/, () => "The group is gone."]],
  fast: [[/^frame (\d+)$/, head => `It gets frame ${head}.`],
  [/^([a-z-]+)$/, why => Object.hasOwn(FAST_WORDS, why) ? `It gets none, since ${FAST_WORDS[why]}.` : ""]],
  get: [[/^held$/, () => "It has the pin."], [/^zero$/, () => "It gets none: the frame has no reference yet."],
  [/^full$/, () => "It gets none: the frame has 255 references."]],
  put: [[/^last$/, () => "That was the last reference. The unit is freed when this CPU settles."],
  [/^left (\d+)$/, left => `${plural(Number(left), "reference")} ${left === "1" ? "is" : "are"} left.`]],
  release: [[/^listed$/, () => "It was fresh, and is on the CPU's list again."],
  [/^returned$/, () => "No reference is left: it is freed."],
    [/^left (\d+)$/,
    left => `${plural(Number(left), "pin")} ${left === "1" ? "is" : "are"} left, so it stays charged.`]],
  touch: [[/^marked$/, () => "It is marked: reclaim will spare it once."],
  [/^active$/, () => "It is the newest active unit."]],
  owner: [[/^free$/, () => "It is free."], [/^cpu (\d+)$/, cpu => `It is on the list of CPU ${cpu}, or fresh there.`],
  [/^(\/\S*)$/, path => `It is charged to ${path}.`]]
};
/** What the answer means. */
export function answeredWords(line) {
  const [verb, first, second] = wordsOf(line.command), { answer } = line,
    [, number, path] = /^refused (\d+) \w+ ?(\S*)/.exec(answer) ?? [];
  if (number)
    return `Refused: ${(line.reason || REFUSALS[number]?.[1] || answer).replace(/of a group$/, `of ${path}`)}.`;
  if (verb === "read")
    return Object.hasOwn(FILE_WORDS, second) && /^\d+$/.test(answer) && second !== "memory.oom.group" ?
    `${capital(FILE_WORDS[second])} of ${first}: ${memoryOf(answer)}.` : "";
  const [, head] = verb === "alloc" && /^[0-9]$|^10$/.test(second) && /^frame (\d+)$/.exec(answer) || [];
  if (head) return `It gets ${framesText(Number(head), Number(head) + 2 ** Number(second) - 1)}.`;
  for (const [form, said] of Object.hasOwn(ANSWERED, verb) ? ANSWERED[verb] : [])
    if (form.test(answer)) return said(...form.exec(answer).slice(1));
  return "";
}
