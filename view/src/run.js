// What is drawn: the states that the rules made of the steps, one for each line of the script.

import { SECONDS, lineOf } from "./commands.js";
import { Numbers, between, indexIn } from "./numbers.js";
import {
  DIRTY, FRESH, IN_USE, LAST_PUT, LISTED, MARKED, MOST_CPUS, MOST_LINE, NOTHING, PAGE, ROW, UNIT, headIn, isGroupList,
  listCount, orderOf, parentPath
} from "./state.js";

const COL = Object.fromEntries(ROW.map((name, at) => [name, at]));
export const HELD_BY_ZONE = 4, IN_HAND = 8; // beside DIRTY and MARKED
const SEATS = MOST_CPUS + 1;
const AT_REST = [NOTHING, LISTED, FRESH, IN_USE, LAST_PUT];
// Of each group's curves, which row of it they are.
export const CURVES = { series: "current", limits: "max", highs: "high", lows: "low", mins: "min", peaks: "peak" };
export const KILLS = 1, REFUSED = 2, LOCKED = 4;
export const TOTALS = ["puts", "freezes", "drops", "returns"];
export const EVENT_STEPS = { "note-low": "low", "note-high": "high", "note-max": "max", "note-oom": "oom",
  kill: "kill" };

let runs = 0;
/**
 * All that is drawn is cells of numbers. Each change of a cell is logged with the value before and after, so that any
 * moment is reached by going forward or back along that log. Position 0 is the boot, position P the state after the Pth
 * line of the script; of a log that names no lines, after the Pth hold of the lock, or step by a CPU without it.
 */
export class Run {
  /** @type {any} */ sizes = null;
  /** @type {any} */ fault = null;
  /** @type {any} */ tight = null; // the moment at which a limit had least room
  /** @type {any} */ found = null; // what was found of a position
  /** @type {any} */ pinsFound = null;
  /** @type {any} */ verdict = null;
  /** @type {number[] | null} */ evenly = null;
  /** @type {number[] | null} */ timed = null;
  /** @type {number | undefined} */ until = undefined; // where the log disagrees
  /** @type {Map<number, string>} */ remarks = new Map();
  lacksSizes = false;
  steps = 0;
  constructor(state, log) {
    const F = state.frames, G = state.mostGroups;
    this.frames = F;
    this.cpus = state.cpus;
    this.mostGroups = G;
    this.log = log;
    this.LIST = F;
    this.SEQUENCE = 2 * F;
    this.FLAGS = 3 * F;
    let at = 4 * F;
    const room = count => {
      at += count;
      return at - count;
    };
    this.STOCK_GROUP = room(SEATS);
    this.STOCK_PAGES = room(SEATS);
    this.CPU_PINS = room(SEATS);
    this.LIFE = room(G);
    this.ROWS = room(G * ROW.length);
    this.LENGTH = room(listCount(G));
    this.OWN = room(G);
    this.FREE = room(1);
    this.LENT = room(1);
    this.TOTALS = room(TOTALS.length);
    this.PINS = at;
    this.cells = new Float64Array(at);
    this.pinCells = new Numbers(Float64Array);
    this.pinNames = []; // of each pin's cell, its CPU and unit
    this.pinSlots = new Map();
    this.cells.fill(-1, this.STOCK_GROUP, this.STOCK_GROUP + SEATS);
    this.cells.fill(-1, this.LIFE, this.LIFE + G);
    this.logCell = new Numbers(Int32Array);
    this.logBy = new Numbers(Float64Array); // by how much the cell grew
    this.position = 0;
    // A life of a group: a number that is given again is another one.
    this.lives = [];
    this.styles = new Map(); // of each path: groups that have it one after the other look alike
    this.livesOf = new Map(); // of each path: how many groups had it
    this.births = new Array(G).fill(0);
    this.removed = []; // the lives that ended, in that order
    this.leastFree = [0, this.frames]; // where, and how many frames
    this.seconds = []; // of samples: the position that comes next, and their seconds
    this.record(state);
    // Of each position where its changes begin, its number in the script, and where its lines of the log begin.
    this.starts = new Numbers(Int32Array);
    this.starts.push(0);
    this.starts.push(this.logCell.length);
    this.lineNumbers = new Numbers(Int32Array);
    this.marks = new Numbers(Uint8Array);
    this.from = new Numbers(Int32Array);
    this.behind = new Numbers(Int32Array);
    this.open(0, 0);
    this.events = [];
    this.firstEvent = 0; // of this position
    this.missed = []; // where a unit couldn't be frozen
    this.locks = Array.from({ length: MOST_CPUS + 1 }, () => []); // where each CPU took the lock
    this.wanting = 0;
    this.cause = ["", "", ""]; // what memory is freed for: the kind, its group, and whose charge
    this.sums = new Map(); // of each group and cause, how many pages were freed on which lines
    this.index = Run.next();
  }

  /** A number that no other run of the page has. */
  static next() {
    return ++runs;
  }

  // Cells

  get(cell) {
    return cell < this.PINS ? this.cells[cell] : this.pinCells.items[cell - this.PINS];
  }
  put(cell, value) {
    if (cell < this.PINS) this.cells[cell] = value;
    else this.pinCells.items[cell - this.PINS] = value;
  }
  set(cell, value) {
    const old = this.get(cell);
    if (old === value) return;
    this.logCell.push(cell);
    this.logBy.push(value - old);
    this.put(cell, value);
  }
  /** Makes a change of the log again, or takes it back. */
  add(at, sign) {
    const cell = this.logCell.items[at], by = sign * this.logBy.items[at];
    if (cell < this.PINS) this.cells[cell] += by;
    else this.pinCells.items[cell - this.PINS] += by;
  }
  /** What a cell had before a change of the position that is shown: a cell changes once at most. */
  oldAt(at) {
    return this.get(this.logCell.items[at]) - this.logBy.items[at];
  }
  row(group, name) {
    return this.cells[this.ROWS + group * ROW.length + COL[name]];
  }
  life(group) {
    const life = group < this.mostGroups ? this.cells[this.LIFE + group] : -1;
    return life < 0 ? null : this.lives[life];
  }
  path(group) {
    return this.life(group)?.path ?? `group ${group}`;
  }
  list(frame) {
    return this.cells[this.LIST + frame];
  }
  flags(frame) {
    return this.cells[this.FLAGS + frame];
  }
  listLength(list) {
    return this.cells[this.LENGTH + list];
  }
  pinSlot(cpu, head) {
    const key = cpu * 2 ** 20 + head;
    if (!this.pinSlots.has(key)) {
      const cell = this.PINS + this.pinCells.length;
      this.pinCells.push(0);
      this.pinNames.push([cpu, head]);
      this.pinSlots.set(key, cell);
    }
    return this.pinSlots.get(key);
  }
  /** Of each frame that had pins, each CPU with its cell. */
  get pinsAt() {
    return this.pinsFound ??= this.pinNames.reduce((pins, [cpu, head], at) => {
      pins.has(head) ? pins.get(head).push([cpu, this.PINS + at]) : pins.set(head, [[cpu, this.PINS + at]]);
      return pins;
    }, new Map());
  }
  pinners(head) {
    return (this.pinsAt.get(head) ?? []).map(([cpu, cell]) => [cpu, this.get(cell)]).filter(([, pins]) => pins);
  }
  pinsOn(head) {
    return this.pinners(head).reduce((sum, [, pins]) => sum + pins, 0);
  }
  isKept(head) {
    return isGroupList(this.list(head));
  }
  groups() {
    return [...Array(this.mostGroups).keys()].filter(group => this.cells[this.LIFE + group] >= 0);
  }
  /** The numbers of a group and of all below it. */
  subtree(group) {
    const path = this.path(group), prefix = path === "/" ? "/" : path + "/";
    return this.groups().filter(other => other === group || this.path(other).startsWith(prefix));
  }
  /** The numbers of the groups from this one up to the root. */
  up(group) {
    const numbers = this.here("numbers", () => new Map(this.groups().map(number => [this.path(number), number]))),
      above = [];
    for (let path = this.path(group);; path = parentPath(path)) {
      if (numbers.has(path)) above.push(numbers.get(path));
      if (path === "/" || !path.startsWith("/")) return above;
    }
  }
  /** The first frame of the unit, or of the list's frame, that has this one; -1 if it is free. */
  headOf(frame) {
    return headIn(this.cells, frame);
  }
  /** Calls `visit(first, size, place)` for each free block, lent frame and unit that begins in these frames. */
  walk(first, end, visit) {
    for (let frame = first; frame < end;) {
      const place = this.cells[frame];
      if (place > 0) {
        const size = place >= UNIT ? 2 ** orderOf(place) : 1;
        visit(frame, size, place);
        frame += size;
        continue;
      }
      let last = frame + 1;
      while (last < this.frames && last < frame + 1024 && this.cells[last] === 0) last++;
      let size = Math.min(frame & -frame || 1024, 1024);
      while (frame + size > last) size /= 2;
      visit(frame, size, 0);
      frame += size;
    }
  }

  // Positions

  /** What was found of this position, or is found now. */
  here(name, find) {
    if (this.found?.position !== this.position) this.found = { position: this.position };
    return this.found[name] ??= find();
  }
  goto(position) {
    while (this.position < position) {
      this.position++;
      for (let at = this.starts.at(this.position); at < this.starts.at(this.position + 1); at++) {
        this.add(at, 1);
      }
    }
    while (this.position > position) {
      for (let at = this.starts.at(this.position + 1) - 1; at >= this.starts.at(this.position); at--) {
        this.add(at, -1);
      }
      this.position--;
    }
  }
  get lines() {
    return this.starts.length - 2;
  }
  get isTimed() {
    return this.seconds.at(-1) > this.seconds[1];
  }
  /**
   * Pairs of a position and its place on the axis, between which both grow evenly: seconds, if samples have them, or
   * lines.
   */
  get knots() {
    const { seconds, lines } = this;
    if (!this.isTimed) return this.evenly ??= [0, 0, lines, lines];
    // The lines of a sample are spread over the time since the sample before it.
    return this.timed ??= [0, seconds[1],
      ...seconds.flatMap((each, at) => at % 2 ? [(seconds[at + 1] ?? lines + 1) - 1, each] : [])];
  }
  /** The place of a position on the axis. */
  axisOf(position) {
    return between(this.knots, position, 0);
  }
  /** The position at a place of the axis. */
  positionAt(place) {
    return between(this.knots, place, 1);
  }
  /** A position begins: its number in the script or log, and where its lines of the log begin. */
  open(number, from) {
    this.drained = false;
    this.lineNumbers.push(number);
    this.from.push(from);
    this.behind.push(0);
    this.marks.push(0);
  }
  mark(mark) {
    this.marks.items[this.marks.length - 1] |= mark;
  }
  /**
   * What happened at this position: the kind, the life of the group, the name of a refusal, where the log explains it.
   */
  happened(kind, group, name = "", note = 0) {
    this.events.push({ position: this.lineNumbers.length - 1, kind, group, life: group >= 0 ? this.life(group) : null,
      name, note });
  }
  /** The events of a position. */
  eventsAt(position) {
    const indexOf = at => indexIn(this.events, at, event => event.position) + 1;
    return this.events.slice(indexOf(position - 1), indexOf(position));
  }
  /** The first event of this kind and group at this position that has no explanation yet gets it. */
  explain(kind, path, note) {
    const event = this.events.slice(this.firstEvent).find(
      each => each.kind === kind && !each.note && each.life?.path === path);
    if (event) event.note = note;
    return event !== undefined;
  }
  /**
   * A line of an explanation. A round that freed something is an event of the group that had no room, and so are stocks
   * that had pages.
   */
  explained(text, start, numbers) {
    const [, what, path, bytes] = /^# (\w+) (\S+)(?: bytes (\d+))?/.exec(text) ?? [];
    if (["limit", "high", "asked", "zone"].includes(what)) {
      this.wanting = numbers.get(what === "zone" ? "/" : path) ?? 0;
      this.drained = false;
      this.cause = [what, what === "zone" ? "/" : path, this.cause[2]];
    }
    if (what === "reclaimed" || what === "killed") this.addToSums(what, text);
    const bound = { limit: "max", high: "high" }[what];
    if (bound && !this.explain(bound, path, start)) this.happened("lowered", this.wanting, "", start);
    else if (what === "stock" && Number(bytes) && !this.drained) {
      this.happened("drain", this.wanting, "", start);
      this.drained = true;
    } else if (what === "round" && / returned [1-9]/.test(text)) this.happened("reclaim", this.wanting, "", start);
    else if (what === "low" || what === "oom") this.explain(what, path, start);
    else if (what === "killed") this.explain("kill", path, start);
  }
  /**
   * Adds what a line of an explanation says was freed. Of the frames after the first thousand runs no group is said.
   */
  addToSums(what, text) {
    const [, from, first, last] = /^# reclaimed (\/\S*) (\d+)(?:-(\d+))?$/.exec(text) ?? [],
      [, rest] = /^# reclaimed (\d+) more/.exec(text) ?? [];
    const [, killed, bytes] = /^# killed (\S+) returned \d+ bytes (\d+)/.exec(text) ?? [],
      whose = from ?? killed ?? "groups not listed";
    const pages = from ? Number(last ?? first) - Number(first) + 1 : Number(rest ?? Number(bytes) / PAGE),
      key = [whose, ...this.cause].join("\n");
    if (!(pages > 0)) return;
    const [kind, of, charge] = this.cause,
      sum = this.sums.get(key) ?? { from: whose, what: kind, of, charge, reclaimed: 0, killed: 0, positions: [] };
    sum[what] += pages;
    if (sum.positions.at(-1) !== this.lineNumbers.length - 1) sum.positions.push(this.lineNumbers.length - 1);
    this.sums.set(key, sum);
  }
  /**
   * The events of this position in the order in which one led to the next: that of the explanation, and the refusal
   * last.
   */
  orderEvents() {
    const turn = ({ kind, note }) => kind === "refused" ? Infinity : note;
    const events = this.events.splice(this.firstEvent).sort(
      (a, b) => turn(a) === turn(b) ? 0 : Number(turn(a)) - Number(turn(b)));
    for (const event of events) this.events.push(event);
    this.firstEvent = this.events.length;
  }
  close(state) {
    const first = this.firstEvent;
    this.orderEvents();
    this.position++;
    this.record(state);
    // A group that was made at this position has its life only now.
    for (const event of this.events.slice(first)) event.life ??= event.group >= 0 ? this.life(event.group) : null;
    if (this.tight) this.tight.life ??= this.life(this.tight.number);
    this.starts.push(this.logCell.length);
  }
  /** Takes over what the steps changed of the state. */
  record(state) {
    const { frames, pins, lists, cpus, usages, groups } = state.touched;
    for (const frame of frames) {
      const stage = state.stage[frame], isInHand = !AT_REST.includes(stage);
      this.set(frame, state.place[frame]);
      this.set(this.LIST + frame, state.list[frame]);
      this.set(this.SEQUENCE + frame, state.list[frame] ? state.turn[frame] : 0);
      this.set(this.FLAGS + frame, state.flags[frame] | (state.kept[frame] ? HELD_BY_ZONE : 0) |
        (isInHand ? IN_HAND : 0));
    }
    for (let at = 0; at < pins.length; at += 2) {
      this.set(this.pinSlot(pins[at], pins[at + 1]), state.parts[pins[at]].pins.get(pins[at + 1]) ?? 0);
    }
    for (const list of lists) this.set(this.LENGTH + list, state.length[list]);
    for (const cpu of cpus) {
      const part = state.parts[cpu];
      this.set(this.STOCK_GROUP + cpu, part.group);
      this.set(this.STOCK_PAGES + cpu, part.isDrained ? -1 : part.pages);
      this.set(this.CPU_PINS + cpu, part.pinned);
    }
    for (const group of groups) this.recordGroup(group, state.groups[group]);
    for (const group of usages) if (state.groups[group] && !groups.has(group))
      this.recordUsage(group, state.groups[group]);
    this.set(this.FREE, state.blocks[0]);
    if (state.blocks[0] < this.leastFree[1]) this.leastFree = [this.position, state.blocks[0]];
    this.set(this.LENT, state.lent);
    for (let at = 0; at < TOTALS.length; at++) this.set(this.TOTALS + at, state[TOTALS[at]]);
    frames.length = pins.length = 0;
    for (const set of [lists, cpus, usages, groups]) set.clear();
  }
  recordGroup(number, group) {
    const life = this.life(number);
    if (life && this.births[number] !== group?.birth) {
      life.series.push(this.position, 0);
      life.until = this.position;
      this.removed.push(life);
      this.set(this.LIFE + number, -1);
    }
    if (!group) return;
    if (this.births[number] !== group.birth) {
      this.births[number] = group.birth;
      this.set(this.LIFE + number, this.lives.length);
      if (!this.styles.has(group.path)) this.styles.set(group.path, this.styles.size);
      this.livesOf.set(group.path, (this.livesOf.get(group.path) ?? 0) + 1);
      this.lives.push({ number, path: group.path, nth: this.livesOf.get(group.path), from: this.position,
        index: this.lives.length, style: this.styles.get(group.path),
        ...Object.fromEntries(Object.entries(CURVES).map(([curve, row]) => [curve, [this.position, group[row]]])) });
    }
    ROW.forEach((name, at) => this.set(this.ROWS + number * ROW.length + at, group[name]));
    this.set(this.OWN + number, group.frames);
    this.tighten(group, 0);
    const now = this.life(number);
    for (const [curve, row] of Object.entries(CURVES))
      if (now[curve].at(-1) !== group[row]) now[curve].push(this.position, group[row]);
  }

  /** The same, if no more than the usage changed. */
  recordUsage(number, group) {
    const at = this.ROWS + number * ROW.length, now = this.life(number);
    this.set(at + COL.current, group.current);
    this.set(at + COL.peak, group.peak);
    this.set(this.OWN + number, group.frames);
    this.tighten(group, 0);
    if (now.series.at(-1) !== group.current) now.series.push(this.position, group.current);
    if (now.peaks.at(-1) !== group.peak) now.peaks.push(this.position, group.peak);
  }
  /** Keeps the moment at which a group's limit had least room: for pages that are needed, or after a line. */
  tighten({ number, max, current }, need) {
    const room = max - current - need;
    if (max >= 0 && current + need > 0 && !(room >= this.tight?.room))
      this.tight = { room, max, usage: current, need, number, life: this.life(number),
      position: need ? this.lineNumbers.length - 1 : this.position };
  }

  // What the log says

  /** The line of the log that begins here, without its line feed. */
  textAt(from) {
    const end = this.log.indexOf("\n", from);
    return this.log.slice(from, end < 0 ? Math.min(this.log.length, from + MOST_LINE) : end);
  }
  /** A position's command and the first line of its answer. */
  said(position) {
    const text = this.textAt(this.from.at(position)), found = this.sizes && lineOf(text, /** @type {any} */ (this)),
      behind = this.behind.at(position);
    const answer = behind ? this.textAt(behind).replace(/^# (= )?/, "") : "", isEnd = this.sizes && !found;
    if (this.sizes) return { line: this.lineNumbers.at(position), cpu: found?.cpu ?? "",
      command: found?.command ?? "the end", isCut: found?.isCut, isEnd, answer };
    const steps = this.stepsFrom(position),
      [, cpu = "", command = text, given = ""] = /^([0-9]+) (.*) > (.*)$/.exec(steps[0] ?? text) ?? [];
    if (steps.length < 2) return { line: this.lineNumbers.at(position), cpu, command, isEnd, isStep: true,
      answer: given };
    const inner = steps.filter(step => !/^\d+ (?:lock|open|shut|unlock)\b/.test(step)).map(
      step => step.replace(/^0 | > done$/g, ""));
    return { line: this.lineNumbers.at(position), cpu,
      command: `${inner.join(", ").slice(0, MOST_LINE) || "holds the lock"}`, isEnd, isStep: true,
      answer: `${steps.length} steps` };
  }
  /** The first steps of a position of a log without commands. */
  stepsFrom(position) {
    const end = position < this.from.length - 1 ? this.from.at(position + 1) : this.until ?? this.log.length,
      from = this.from.at(position);
    return position ? this.log.slice(from, Math.min(end, from + 4 * MOST_LINE)).split("\n").slice(0, -1).filter(
      step => step && step[0] !== "#") : [];
  }
  /** A position's answer, which may have many lines. */
  answerAt(position) {
    const lines = /(?:# = .*(?:\n|$))*/y, behind = this.behind.at(position);
    lines.lastIndex = behind;
    return this.sizes ? behind ? lines.exec(this.log)[0] : "" : this.said(position).answer;
  }
  /**
   * All that the log says of a position: its steps, its answer and its explanation. Of each, the first so many bytes.
   */
  line(position, most = 200000) {
    if (!position) return null;
    const end = position < this.from.length - 1 ? this.from.at(position + 1) : this.until ?? this.log.length;
    const from = this.from.at(position), behind = this.behind.at(position) || end, said = this.said(position);
    const linesOf = (first, last) => this.log.slice(first, Math.min(last, first + most)).split("\n").slice(0, -1);
    const steps = linesOf(from, this.sizes ? behind : end).filter(text => text && text[0] !== "#"),
      comments = this.sizes ? linesOf(behind, end) : [];
    const answer = this.sizes ? comments.filter(text => text.startsWith("# = ")).map(text => text.slice(4)).join("\n") :
      said.answer;
    const rest = Math.max(0, behind - from - most) + Math.max(0, end - behind - most);
    return { ...said, rest, lock: (this.marks.at(position) & LOCKED) > 0, steps, answer,
      notes: comments.filter(text => /^# (?!=|refused |bad: )/.test(text) && !SECONDS.test(text)),
      reason: comments.find(text => text.startsWith("# refused "))?.replace(/^# refused \d+: /, "") };
  }
  /** Whether the steps of this position changed anything of a frame. */
  movesFrames(position) {
    for (let at = this.starts.at(position); at < this.starts.at(position + 1); at++) {
      const cell = this.logCell.items[at];
      if (cell < 4 * this.frames || cell >= this.PINS) return true;
    }
    return false;
  }
  /** What the steps of this position changed: units and frames by their place, and the rest by what it is of. */
  changes() {
    return this.here("changes", () => this.findChanges());
  }
  findChanges() {
    const F = this.frames, changes = { places: new Map(), flags: new Set(), lists: new Map(), pins: new Set(),
      stocks: new Set(),
      groups: new Map() };
    for (let at = this.starts.at(this.position); at < this.starts.at(this.position + 1); at++) {
      const cell = this.logCell.items[at], old = this.oldAt(at), row = cell - this.ROWS,
        stock = cell - this.STOCK_GROUP;
      if (cell < F) changes.places.set(cell, old);
      else if (cell < 2 * F) changes.lists.set(cell - F, changes.lists.get(cell - F) ?? old);
      else if (cell >= 3 * F && cell < 4 * F) {
        if ((old ^ this.get(cell)) & (DIRTY | MARKED)) changes.flags.add(cell - 3 * F);
      } else if (stock >= 0 && stock < 2 * SEATS) changes.stocks.add(stock % SEATS);
      else if (cell >= this.PINS) changes.pins.add(cell - this.PINS);
      else if (row >= 0 && row < this.mostGroups * ROW.length) {
        const group = Math.floor(row / ROW.length), rows = changes.groups.get(group) ?? new Map();
        changes.groups.set(group, rows.set(ROW[row % ROW.length], old));
      }
    }
    return changes;
  }
}
