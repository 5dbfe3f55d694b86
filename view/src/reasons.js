// Why a step isn't legal: sentences on the state before it, as docs/LOG.md has them

import { refused } from "./commands.js";
import {
  BARE, COLLECTED, EMPTY, ENDED, FRESH, FRESH_OUT, ILLEGAL, IN, IN_USE, LAST_PUT, LAST_PUT_OUT, LISTED, NO_BLOCK, OUT,
  OVER, PLACED, TOOK, UNIT, cpuList, groupOf
} from "./state.js";
import { ACTIONS } from "./steps.js";

const FRAME_ACTIONS = ["get", "put", "freeze", "unfreeze", "pass-out", "take-in", "pass-back", "collect", "credit",
  "publish", "return"];
const number = (what, count) => `the number of ${what} is ${count}`;
const lockIs = on => !on.holder ? "the zone isn't locked" :
  `the zone is locked by CPU ${on.holder}, and ${on.visit ? "its visit is open" : "no visit is open"}`;
const stockIs = (cpu, { group, isDrained }) =>
  `CPU ${cpu}'s stock is of ${group < 0 ? "no group" : `group ${group}${isDrained ? " and was drained" : ""}`}`;
const inStock = (cpu, { pages }) => number(`pages in CPU ${cpu}'s stock`, pages);
const pendingFor = (on, group) => number(`pages pending for group ${group}`, on.groups[group]?.pending ?? 0);
/** What a frame is. */
function frameIs(on, frame) {
  const head = on.headOf(frame), place = on.place[frame], stage = on.stage[frame],
    lister = Math.ceil(on.list[frame] / 3), passer = on.passer.get(frame);
  if (head < 0) return `frame ${frame} is free`;
  if (head !== frame) return `frame ${frame} is in a unit of group ${groupOf(on.place[head])}, behind its head`;
  if (place < UNIT)
    return `frame ${frame} is ${{ [IN]: "in transit to", [OUT]: "in transit back from" }[stage] ??
    "on"} CPU ${place}${stage === LISTED ? "'s list" : ""}`;
  return `the unit at frame ${frame} is ${{ [BARE]: "bare", [FRESH]: `fresh at CPU ${lister}`,
    [FRESH_OUT]: `fresh and in transit from CPU ${passer}`, [COLLECTED]: "collected",
    [IN_USE]: "in use", [LAST_PUT]: `back at CPU ${lister}`, [LAST_PUT_OUT]: `back and in transit from CPU ${passer}`,
    [ENDED]: "ended" }[stage]}`;
}
/** What the least frame in transit is; of one CPU, or of all. */
function transitIs(on, cpu) {
  const frame = on.stage.findIndex((stage, at) =>
    stage === IN && (!cpu || on.place[at] === cpu) || on.passer.has(at) && (!cpu || on.passer.get(at) === cpu));
  return frame >= 0 && frameIs(on, frame);
}
/** Of an answer to `place` that isn't the one due. */
function placeIs(on, { b: order, answer, n: frame, m }, due) {
  if (answer !== PLACED) return due === NO_BLOCK ? `no block of order ${order} is free` :
    `the block of order ${order} at frame ${on.n} is free`;
  if (m !== order) return `the order is ${order}`;
  if (frame % 2 ** order || frame + 2 ** order > on.frames)
    return `no block of order ${order} begins at frame ${frame}`;
  for (let at = frame; at < frame + 2 ** order; at++) if (on.headOf(at) >= 0) return frameIs(on, at);
}
/**
 * Of each action: what makes it one that may not be made, the first that holds; and what speaks against another answer.
 */
const REASONS = {
  lock: on => [[on.holder && lockIs(on)]],
  unlock: (on, { seat }) => [[(on.holder !== seat || on.visit) && lockIs(on),
  on.pending && pendingFor(on, on.groups.findIndex(group => group?.pending)), transitIs(on, 0)]],
  open: on => [[lockIs(on)]],
  shut: (on, { a }) => [[(!a || on.visit !== a) && lockIs(on), on.parts[a]?.transit && transitIs(on, a),
  on.parts[a]?.unreported && number(`unreported pages of CPU ${a}`, on.parts[a].unreported),
    number(`reported pages of CPU ${a}`, on.parts[a]?.reported)]],
  get: (on, { a, seat }, cpu) =>
  [[number(`references and back frames of CPU ${seat}`, cpu.pinned + on.count("b", seat))],
  number(`references on frame ${a}`, on.live[a])],
  put: (on, { a, seat }, cpu) =>
  [[number(`references of seat ${seat} on frame ${a}`, cpu ? cpu.pins.get(a) ?? 0 : on.kept[a])],
  number(`references on frame ${a}`, on.live[a])],
  freeze: (on, { a, b }) => [[b < 1 && "a frame has 1 to 255 references",
  number(`references of seat 0 on frame ${a}`, on.kept[a])], number(`references on frame ${a}`, on.live[a])],
  unfreeze: (on, { a }) => [[![BARE, COLLECTED, ENDED].includes(on.stage[a]) && frameIs(on, a),
  "a frame has 1 to 255 references"]],
  "pass-out": (on, { a, b }) => [[(!b || on.visit !== b) && lockIs(on), frameIs(on, a)]],
  "take-in": (on, { a }) => [[frameIs(on, a)]],
  "pass-back": (on, { a, seat }) => [[on.visit !== seat && lockIs(on),
  on.list[a] === cpuList("l", seat) && `frame ${a} isn't the first of CPU ${seat}'s list`, frameIs(on, a)]],
  collect: (on, { a, b }) => [[(b < 1 || b > on.cpus) && `seat ${b} isn't a CPU's`, frameIs(on, a)]],
  consume: (on, { a, seat, answer }, cpu) =>
  [[on.first[cpuList("l", seat)] < 0 && number(`frames on CPU ${seat}'s list`, 0),
  number(`fresh frames of CPU ${seat}`, on.count("n", seat))],
    cpu.group === a && !cpu.isDrained && [TOOK, EMPTY].includes(answer) ? inStock(seat, cpu) : stockIs(seat, cpu)],
  credit: (on, { a, seat }, cpu) => [[frameIs(on, a)], stockIs(seat, cpu)],
  report: (on, { seat }, cpu) => [[on.visit !== seat && lockIs(on),
  number(`unreported pages of CPU ${seat}`, cpu.unreported)]],
  absorb: (on, { a }) => [[lockIs(on)], number(`reported pages of CPU ${a}`, on.parts[a]?.reported)],
  fill: (on, { a, b }) => [[(!a || on.visit !== a) && lockIs(on), !on.groups[b] && `group ${b} doesn't exist`,
  on.parts[a]?.pages && inStock(a, on.parts[a]),
    on.parts[a]?.book && on.parts[a].group !== b && `CPU ${a}'s book has pages of group ${on.parts[a].group}`,
    pendingFor(on, b)]],
  drain: (on, { a }) => [[`seat ${a} isn't a CPU's`], on.parts[a] && inStock(a, on.parts[a])],
  grant: (on, { a, b }, cpu, due) => [[`group ${a} is killed`],
  due !== OVER ? `each limit from group ${a} up has room for ${b} pages` :
    `the limit of ${on.path(on.n)} has no room: ${on.groups[on.n].current} + ${b} > ${on.groups[on.n].max}`],
  ungrant: (on, { a }) => [[pendingFor(on, a)]],
  place: (on, step, cpu, due) => [[pendingFor(on, step.a)], due !== ILLEGAL && placeIs(on, step, due)],
  publish: (on, { a }) => [[!on.isHead(a) && frameIs(on, a), number(`references of seat 0 on frame ${a}`, on.kept[a])]],
  return: (on, { a }) =>
  [[on.stage[a] === COLLECTED && `the unit at frame ${a} is collected, and group ${groupOf(on.place[a])} isn't killed`,
  frameIs(on, a)]],
  make: (on, { path }, cpu, due) => [[due === ILLEGAL && `mkdir is ${refused(on.makeFault(path))}`],
  `the least free group number is ${on.n}`],
  remove: (on, { a }) => [[!a && "group 0 is the root", on.groups[a]?.below && `a group is below group ${a}`,
  `the usage of group ${a} is ${on.groups[a]?.current}`]],
  kill: (on, { a }) => [[`group ${a} is killed`]],
};
/** Why a step isn't legal, for which another answer is due. */
export function reasonOf(on, step, due) {
  const { seat, a, answer } = step, [name, of, kinds] = ACTIONS[step.action];
  if (seat > on.cpus || of === "cpu" && !seat) return `seat ${seat} isn't ${of === "0" ? "the zone" : "a CPU"}'s`;
  if (of === "0" && seat) return `seat ${seat} isn't the zone's`;
  if (!seat && !on.holder) return lockIs(on);
  if (FRAME_ACTIONS.includes(name) && a >= on.frames) return `frame ${a} isn't the zone's`;
  if (kinds[0] === "g" && name !== "consume" && !on.groups[a]) return `group ${a} doesn't exist`;
  const [never, other] = REASONS[name]?.(on, step, on.parts[seat], due) ?? [["group 0 is the root"]];
  return due === ILLEGAL ? never.find(each => each) :
    answer === ILLEGAL ? "the step may be made" : other || "its only answer is done";
}
