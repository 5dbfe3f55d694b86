// The rules of docs/LOG.md. This part needs no page: it reads a log, says whether each step is legal, and follows what
// a
// log of memcg says beside its steps. The tests run it alone.

export const PAGE = 4096, MOST_LINE = 1024, MOST_NUMBER = 2 ** 32 - 1, MOST_FRAMES = 1048576, MOST_CPUS = 64;
export const MOST_PINS = 256, MOST_REFERENCES = 255, MOST_FRESH = 32, MOST_GROUPS = 1024, MOST_DEPTH = 8;
export const MOST_ORDER = 10;
export const DEFAULT_GROUPS = 64; // how many groups may exist at once, if the sizes don't say

// Answers. Their numbers: n has 32 bits, w 64, g is a group, k an order.
export const ANSWERS = [["illegal", ""], ["done", ""], ["held", ""], ["full", ""], ["zero", ""], ["left", "n"],
  ["last", ""],
  ["missed", ""], ["other-group", ""], ["drained", ""], ["took", ""], ["empty", ""], ["back", ""], ["pages", "w"],
  ["granted", ""], ["over", "g"], ["placed", "nk"], ["no-block", ""], ["number", "g"]];
export const [ILLEGAL, DONE, HELD, FULL, ZERO, LEFT, LAST, MISSED, OTHER_GROUP, DRAINED, TOOK, EMPTY, BACK, PAGES,
  GRANTED, OVER,
  PLACED, NO_BLOCK, NUMBER] = ANSWERS.keys();
/** A map from words to codes. It has no word but its own: `constructor` is none. */
export const codesOf = table => new Map(table.map(([word], code) => [word, code]));
export const ANSWER_CODES = codesOf(ANSWERS);

// A place is one number: 0 free, 1 to 64 lent to that CPU, from UNIT on the head of a unit, with its group and order.
export const UNIT = 128;
export const placeOf = (group, order) => UNIT + group * 16 + order;
export const groupOf = place => (place - UNIT) >> 4, orderOf = place => place & 15;
// A list is one number, too: three of each CPU (its list, fresh and back frames), two of each group; 0 is none.
export const cpuList = (kind, cpu) => (cpu - 1) * 3 + { l: 1, n: 2, b: 3 }[kind];
export const FIRST_GROUP_LIST = 3 * MOST_CPUS + 1, listCount = mostGroups => FIRST_GROUP_LIST + 2 * mostGroups;
export const groupList = (group, isActive) => FIRST_GROUP_LIST + 2 * group + (isActive ? 1 : 0);
export const isGroupList = list => list >= FIRST_GROUP_LIST;
// Where a lent frame is, or what became of a unit, kept at its head.
export const [NOTHING, IN, LISTED, OUT, BARE, FRESH, FRESH_OUT, COLLECTED, IN_USE, LAST_PUT, LAST_PUT_OUT, ENDED] =
  Array(12).keys();
export const DIRTY = 1, MARKED = 2;
// The numbers of a group, as the page draws them.
export const ROW = ["number", "max", "current", "peak", "max_events", "oom_events", "kill_events", "max_local",
  "oom_local",
  "kill_local", "killed", "oom_group", "group_kill_events", "group_kill_local", "high", "low_events", "low_local",
  "high_events", "high_local", "low", "min"];

/** The frames, CPUs and groups, as the steps made them. Nothing is written for the frames behind a unit's head. */
export class State {
  holder = 0; visit = 0; transit = 0; pending = 0; lent = 0; births = 0; effort = 0;
  puts = 0; freezes = 0; drops = 0; returns = 0; n = 0; m = 0;
  constructor(frames, cpus, mostGroups) {
    this.frames = frames;
    this.cpus = cpus;
    this.mostGroups = mostGroups;
    this.place = new Uint16Array(frames);
    this.stage = new Uint8Array(frames);
    this.live = new Uint8Array(frames); // references in all
    this.kept = new Uint8Array(frames); // of these, those of seat 0
    this.flags = new Uint8Array(frames);
    // How many halves of each aligned block are wholly free, and how many blocks of each order are.
    this.halves = Array.from({ length: MOST_ORDER + 1 },
      (_, order) => order ? new Uint8Array(frames >> order).fill(2) : null);
    this.blocks = Array.from({ length: MOST_ORDER + 1 }, (_, order) => frames >> order);
    // A frame is on one list at most: so one link to the next and one to the frame before it serve all lists.
    this.list = new Uint16Array(frames);
    this.next = new Int32Array(frames);
    this.before = new Int32Array(frames);
    this.turn = new Uint32Array(frames); // when the frame was added to its list
    this.turns = 0;
    this.first = new Int32Array(listCount(mostGroups)).fill(-1);
    this.last = new Int32Array(listCount(mostGroups)).fill(-1);
    this.length = new Int32Array(listCount(mostGroups));
    this.clean = new Int32Array(mostGroups); // pages of the clean units on each group's lists
    this.parts = [null];
    for (let cpu = 1; cpu <= cpus; cpu++) this.parts.push({ pins: new Map(), pinned: 0, transit: 0, group: -1, pages: 0,
      isDrained: false, book: 0, unreported: 0, reported: 0 });
    this.groups = new Array(mostGroups).fill(null);
    this.numbers = new Map();
    this.passer = new Map(); // whose frame is in transit back
    // What changed since the page looked last; of groups in `usages` no more than usage, peak and own frames.
    this.touched = { frames: [], lists: new Set(), cpus: new Set(), usages: new Set(), groups: new Set(), pins: [] };
    this.born("/", 0, -1);
  }
  born(path, number, parent) {
    this.groups[number] = { ...Object.fromEntries(ROW.map(name => [name, 0])), number, max: -1, high: -1, path, parent,
      below: 0, pending: 0,
      frames: 0, birth: ++this.births };
    if (parent >= 0) this.groups[parent].below++;
    this.numbers.set(path, number);
    this.touched.groups.add(number);
  }

  // Lists

  add(list, frame) {
    const last = this.last[list];
    this.next[frame] = -1;
    this.before[frame] = last;
    if (last < 0) this.first[list] = frame;
    else this.next[last] = frame;
    this.last[list] = frame;
    this.list[frame] = list;
    this.turn[frame] = ++this.turns;
    this.length[list]++;
    this.countClean(frame, 1);
    this.touched.lists.add(list);
    this.touched.frames.push(frame);
  }
  remove(frame) {
    const list = this.list[frame], next = this.next[frame], before = this.before[frame];
    this.countClean(frame, -1);
    if (before < 0) this.first[list] = next;
    else this.next[before] = next;
    if (next < 0) this.last[list] = before;
    else this.before[next] = before;
    this.list[frame] = 0;
    this.length[list]--;
    this.touched.lists.add(list);
    this.touched.frames.push(frame);
  }
  countClean(frame, sign) {
    const place = this.place[frame];
    if (isGroupList(this.list[frame]) && !(this.flags[frame] & DIRTY))
      this.clean[groupOf(place)] += sign * 2 ** orderOf(place);
  }
  /** Marks a unit of a list as dirty, or as clean. */
  soil(frame, isDirty) {
    this.countClean(frame, -1);
    this.flags[frame] = this.flags[frame] & ~DIRTY | (isDirty ? DIRTY : 0);
    this.countClean(frame, 1);
  }
  count(kind, cpu) {
    return this.length[cpuList(kind, cpu)];
  }
  *listed(list) {
    for (let frame = this.first[list]; frame >= 0; frame = this.next[frame]) yield frame;
  }

  // Frames

  take(frame, order) {
    for (let least = 0; least <= order; least++) this.blocks[least] -= 2 ** (order - least);
    for (let above = order + 1; above <= MOST_ORDER; above++) {
      const halves = this.halves[above], at = frame >> above;
      if (at >= halves.length || halves[at]-- < 2) return;
      this.blocks[above]--;
    }
  }
  free(frame, order) {
    this.set(frame, 0, NOTHING);
    for (let least = 0; least <= order; least++) this.blocks[least] += 2 ** (order - least);
    for (let above = order + 1; above <= MOST_ORDER; above++) {
      const halves = this.halves[above], at = frame >> above;
      if (at >= halves.length || ++halves[at] < 2) return;
      this.blocks[above]++;
    }
  }
  set(frame, place, stage) {
    this.place[frame] = place;
    this.stage[frame] = stage;
    this.touched.frames.push(frame);
  }
  /** The first frame of the unit, or the lent frame, that has this one; -1 if it is free. */
  headOf(frame) {
    return headIn(this.place, frame);
  }
  isHead(frame) {
    return this.place[frame] >= UNIT;
  }
  isFreeBlock(frame, order) {
    const isWhole = order ? this.halves[order][frame >> order] === 2 : this.place[frame] === 0;
    return frame % 2 ** order === 0 && frame + 2 ** order <= this.frames && isWhole && this.headOf(frame) < 0;
  }
  isGreatestBlock(frame, order) {
    return this.isFreeBlock(frame, order) &&
      !(order < MOST_ORDER && this.isFreeBlock(frame & ~(2 ** order), order + 1));
  }
  *freeBlocks(least = 0) {
    for (let order = least; order <= MOST_ORDER; order++) {
      for (let frame = 0; frame + 2 ** order <= this.frames; frame += 2 ** order) {
        if (this.isGreatestBlock(frame, order)) yield [order, frame];
      }
    }
  }
  /** A fresh unit, or a new one, is charged. */
  charged(frame, group, order, stage) {
    this.set(frame, placeOf(group, order), stage);
    this.groups[group].frames += 2 ** order;
    this.touched.usages.add(group);
  }
  ended(frame) {
    this.live[frame] = this.kept[frame] = 0;
    this.set(frame, this.place[frame], ENDED);
  }
  pinsOn(frame) {
    return this.live[frame] - this.kept[frame];
  }
  moved(cpu, by) {
    this.parts[cpu].transit += by;
    this.transit += by;
  }

  // Groups

  *up(group) {
    for (; group >= 0; group = this.groups[group].parent) yield this.groups[group];
  }
  charge(group, pages) {
    for (let above = this.groups[group]; above; above = this.groups[above.parent]) {
      above.current += pages;
      if (above.current > above.peak) above.peak = above.current;
      this.touched.usages.add(above.number);
    }
  }
  /** Pages become pending for a group, or no longer are. */
  pend(group, pages) {
    this.groups[group].pending += pages;
    this.pending += pages;
  }
  /** How many pages have to be freed, so that the limit, or memory.high, has room for so many more. */
  missing(group, pages, bound = "max") {
    const { [bound]: most, current } = this.groups[group];
    return most < 0 ? 0 : Math.max(0, current + pages - most);
  }
  /** What memory.low or memory.min sets of the group's usage: all of it, if that is max. */
  claim(group, key) {
    const { [key]: most, current } = this.groups[group];
    return most < 0 ? current : Math.min(current, most);
  }
  /**
   * How many of a group's pages `low` or `min` protects from a reclaim of the subtree of `top`, which has the group.
   */
  protection(key, top, group) {
    const { [key]: most, current, parent } = this.groups[group];
    if (group === top) return 0;
    if (parent === top) return most < 0 ? MOST_NUMBER : most;
    const above = this.protection(key, top, parent), claim = this.claim(group, key);
    if (!above) return 0; // before the sum over all groups, of which a zone may have many
    const claims = this.groups.reduce((sum, each) => each?.parent === parent ? sum + this.claim(each.number, key) : sum,
      0);
    if (claims > above) return Math.floor(claim * above / claims);
    const rest = claim < current ?
      Math.floor((above - claims) * (current - claim) / (this.groups[parent].current - claims)) : 0;
    return Math.min(claim + rest, above);
  }
  /**
   * How many pages reclaim frees below `top`, if it can free so many of each of its groups: it spares what memory.min
   * protects, or nothing.
   */
  freed(top, pages, isSparing) {
    const usages = this.groups.map(group => group?.current), before = this.groups[top].current;
    for (const [group, most] of pages) {
      const count = Math.min(most, Math.max(0,
        this.groups[group].current - (isSparing ? this.protection("min", top, group) : 0)));
      for (const above of this.up(group)) above.current -= count;
    }
    const freed = before - this.groups[top].current;
    for (const group of this.groups) if (group) group.current = usages[group.number];
    return freed;
  }
  get isProtecting() {
    return this.groups.some(group => group && (group.low || group.min));
  }
  countEvent(group, event) {
    this.groups[group][`${event}_local`]++;
    for (const above of this.up(group)) {
      above[`${event}_events`]++;
      this.touched.groups.add(above.number);
    }
  }
  /** Why no group of this path may be made, as the number of a refusal; 0 if it may. */
  makeFault(path) {
    const names = path.slice(1).split("/");
    if (path.length > 512 || path[0] !== "/" ||
      names.some(name => !/^[!-.0-~]{1,255}$/.test(name) || /^\.\.?$/.test(name))) return 3;
    if (names.length > MOST_DEPTH) return 5;
    if (this.numbers.has(path)) return 2;
    return this.numbers.has(parentPath(path)) ? this.numbers.size === this.mostGroups ? 4 : 0 : 1;
  }
  isBelow(group, top) {
    while (group >= 0 && group !== top) group = this.groups[group].parent;
    return group >= 0;
  }
  subtree(top) {
    return this.groups.filter(group => group && this.isBelow(group.number, top)).map(group => group.number);
  }
  path(group) {
    return this.groups[group].path;
  }

  answerText(answer) {
    return [ANSWERS[answer][0], this.n, this.m].slice(0, 1 + ANSWERS[answer][1].length).join(" ");
  }
}
export function headIn(places, frame) {
  for (let order = 0; order <= MOST_ORDER; order++) {
    const head = frame & -(2 ** order), place = places[head];
    if (place >= UNIT ? orderOf(place) >= order : place > 0 && order === 0) return head;
  }
  return -1;
}
export const parentPath = path => path.slice(0, path.lastIndexOf("/")) || "/";
