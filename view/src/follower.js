import {
  CUT, FILES, MOST_DETAILS, MOST_ROUNDS, REFUSALS, SECONDS, SETTINGS, VALUES, blocksOf, isDigit, isGroupUnit, lineOf,
  ownerOf, pagesOf, readOf, refused, settingOf, shownBy, sizesOf, statOf, stockOf, unitsOf
} from "./commands.js";
import {
  ANSWERS, BACK, COLLECTED, DIRTY, DONE, FRESH_OUT, LAST, MARKED, MOST_CPUS, MOST_FRESH, MOST_LINE, MOST_ORDER,
  MOST_PINS, MOST_REFERENCES, NO_BLOCK, OVER, PAGE, TOOK, cpuList, groupList, groupOf, isGroupList, orderOf
} from "./state.js";
import { ACTIONS } from "./steps.js";

export const MOST_CHOICES = 20, MOST_KILL_ORDER = 3; // above this order nobody is killed
/**
 * What makes a kill: the limit and the usage under it, how many pages have no room, and how many pages reclaim would
 * free
 * besides, if memory.min spared none, if the victim's units were clean, if all below the limit were, and if these had
 * no pins either. To find
 * these takes a look at each unit, so it is done for the first kills only: those of the verdict.
 */
export function choiceOf(state, limited, need, victim = -1) {
  const { max, current, path } = state.groups[limited], below = victim < 0 ? [] : state.subtree(limited);
  const pages = new Map(below.map(group => [group, { clean: 0, dirty: 0, pinned: 0 }]));
  for (const list of below.flatMap(group => [groupList(group, false), groupList(group, true)])) {
    for (const frame of state.listed(list)) {
      const kind = state.pinsOn(frame) > 0 ? "pinned" : state.flags[frame] & DIRTY ? "dirty" : "clean";
      pages.get(groupOf(state.place[frame]))[kind] += 2 ** orderOf(state.place[frame]);
    }
  }
  const freed = (kindsOf, isSparing = true) => state.freed(limited,
    below.map(group => [group, kindsOf(group).reduce((sum, kind) => sum + pages.get(group)[kind], 0)]), isSparing);
  const choice = { path, victim: state.groups[victim]?.path, max, usage: current, need,
    spared: freed(() => ["clean"], false), its: freed(group => group === victim ?
    ["clean", "dirty"] : ["clean"]), dirty: freed(() => ["clean", "dirty"]),
    pinned: freed(() => ["clean", "dirty", "pinned"]) };
  choice.full = [...state.up(limited)].filter(above => above.number !== limited && state.missing(above.number, need))
    .map(above => above.path);
  return choice;
}
/** What is known of the line that is followed: what is due, and what its steps did. */
class LineState {
  /** @type {any} */ line = null;
  isEnd = false;
  /** @type {any} */ due = null;
  /** @type {any[]} */ notes = [];
  /** @type {any} */ wants = null;
  /** @type {any} */ over = null;
  /** @type {any} */ owed = null;
  /** @type {any[]} */ drains = [];
  /** @type {any} */ own = null;
  /** @type {any} */ killing = null;
  /** @type {any[]} */ dying = [];
  told = 0; details = 0; more = 0; note = ""; isOpen = false; locks = 0; steps = 0; blocked = 0; isBlock = false;
  behindUngrant = ""; took = -1; placed = -1; made = -1; isRemoved = false; isSet = false; left = ""; got = "";
  isListed = false; granted = 0; hand = 0; unlisted = 0; passed = 0; givenBack = 0; freed = 0; limited = -1;
  oomAt = -1; drainedFor = -1; isDraining = false; killedWhole = -1; pinsPut = 0;
}
/**
 * Follows a log of memcg, line by line of its script: what isn't a step (the order of a group's lists, marks and dirt)
 * follows from the commands and the manual's chapter on reclaim. Each method returns what doesn't fit, or nothing.
 */
export class Follower extends LineState {
  /** @type {any} */ state = null;
  /** @type {any} */ reader = null;
  /** @type {any} */ sizes = null;
  /** @type {any} */ plan = null;
  /** @type {any} */ hasReasons = null;
  /** @type {any} */ choice = null;
  /** @type {any} */ was = null;
  /** @type {any} */ wants = null;
  /** @type {any} */ drained = null;
  lacksSizes = false;
  expected = -1;
  number = 0;
  seconds = -1;
  choices = 0;
  fresh = -1;
  isPlaced = false;
  constructor() {
    super();
    this.sawNone = new Uint8Array(MOST_CPUS + 1); // whether the CPU saw last that its stock has no page
  }
  zone(state, reader) {
    Object.assign(this, { state, reader });
  }
  get isOurs() {
    return this.sizes !== null;
  }

  // Comments

  comment() {
    if (!this.state) return;
    const { text, line } = this.reader;
    if (!this.isOurs) {
      if (line === 2) this.sizes = sizesOf(text);
      this.lacksSizes ||= !this.isOurs && /^# line [0-9]+: /.test(text);
      return;
    }
    const [, seconds] = isDigit(text, 2) && SECONDS.exec(text) || [];
    if (seconds && Number(seconds) < this.seconds) return "the seconds don't ascend";
    if (seconds) this.seconds = Number(seconds);
    if (seconds || text.startsWith("# bad: ")) return this.endLine();
    if (text !== "# end" && !text.startsWith("# line ")) return this.compare(text);
    const fault = this.close(), next = fault || text === "# end" ? null : lineOf(text, this.state);
    if (fault) return fault;
    if (this.isEnd) return "nothing may follow the end";
    if (text !== "# end" && !next) return "no line of a script is so";
    if (next && next.number <= this.number) return "the lines' numbers don't ascend";
    this.begin(next);
  }
  /** The line before has ended: what comes is a sample's seconds, or a line that a session couldn't read. */
  endLine() {
    const fault = this.close();
    if (fault) return fault;
    if (this.isEnd) return "nothing may follow the end";
    this.line = null;
  }
  /** A comment after the steps of a line. */
  compare(text) {
    if (!this.line && !this.isEnd) return "no line of the script comes before it";
    if (this.state.holder) return `CPU ${this.state.holder} holds the lock`;
    this.due ??= this.answers(text);
    if (this.isUntold(text)) this.told++;
    const due = this.due[this.told++];
    if (due === undefined) return "nothing more was due";
    if (due !== text && due !== null) return `${due} was due`;
    if (due === null && this.hidesState && !/^# (= )?refused /.test(text)) return CUT;
  }
  /** Whether the command changes what no step shows. */
  get hidesState() {
    const { verb, words } = this.line;
    return ["touch", "dirty", "clean"].includes(verb) || verb === "write" && SETTINGS.includes(words[1]);
  }
  /** Whether a refusal's sentence is due that isn't said: older logs have none, so the first refusal decides. */
  isUntold(text) {
    if (!this.due[this.told]?.startsWith("# refused ")) return false;
    this.hasReasons ??= text.startsWith("# refused ");
    return !this.hasReasons;
  }
  /** The end of a line: nothing is owed. */
  close() {
    if (!this.line && !this.isEnd) return;
    if (this.state.holder) return `CPU ${this.state.holder} holds the lock`;
    this.due ??= this.answers("");
    if (this.isUntold("")) this.told++;
    if (this.told < this.due.length && this.due[this.told] !== null) return `${this.due[this.told]} was due`;
  }
  end() {
    if (!this.isOurs) return;
    return this.close() ?? (this.isEnd ? undefined : "# end was due");
  }
  begin(line) {
    const { state } = this;
    Object.assign(this, new LineState(), { line, isEnd: !line });
    if (!line) return;
    this.number = line.number;
    const { cpu, verb, words } = line, part = state.parts[cpu], frame = Number(words[0]);
    line.order = verb === "alloc" ? Number(words[1]) : -1;
    this.was = { list: state.count("l", cpu), fresh: state.count("n", cpu), group: part.group,
      isDrained: part.isDrained,
      sawNone: this.sawNone[cpu], isFull: part.pinned + state.count("b", cpu) >= MOST_PINS };
    if ("get put release".includes(verb))
      Object.assign(this.was, { live: state.live[frame], pins: part.pins.get(frame) ?? 0,
      isFresh: state.list[frame] === cpuList("n", cpu) });
    if (verb === "release" && this.was.isFresh && part.isDrained) this.sawNone[cpu] = 0;
  }
  /** The group that the command names, by its number or path; -1 if there is none. */
  get group() {
    const { verb, words } = this.line;
    if (verb === "fast") return Number(words[0]);
    return this.state.numbers.get(words[0]) ?? -1;
  }
  /**
   * The pages that a write names. If the comment doesn't show its bytes, those of the explanation after the steps; of a
   * file without a step, if the answer is ok, those of the comment: then it hides spaces alone.
   */
  get amount() {
    const { words: [, file, value], isVague } = this.line, isSetting = SETTINGS.includes(file);
    if (!isVague) return pagesOf(value, isSetting);
    const { log, start } = this.reader, next = log.indexOf("\n# line ", start),
      lines = log.slice(start, next < 0 ? log.length : next);
    const found = /^# asked \S+ ([0-9]+)$/m.exec(lines), isOk = /^# = ok$/m.test(lines);
    if (isSetting) return isOk ? pagesOf(value.replaceAll("?", " "), true) : null;
    return found ? Number(BigInt(found[1]) / BigInt(PAGE)) : isOk ? 0 : null;
  }

  // Reclaim, by the manual's chapter

  move(frame, isActive) {
    this.state.remove(frame);
    this.state.flags[frame] &= ~MARKED;
    this.state.add(groupList(groupOf(this.state.place[frame]), isActive), frame);
  }
  lose(frame) {
    if (isGroupList(this.state.list[frame])) this.state.remove(frame);
    this.state.flags[frame] = 0;
  }
  /** A round yields each frame that is tried, and is sent how many pages that freed. */
  *round(top, want, number) {
    const { state } = this, told = { tried: 0, returned: 0, pages: 0 };
    let run = null;
    const close = () => {
      if (run && this.details++ < MOST_DETAILS)
        this.notes.push(`# reclaimed ${run.path} ${run.first}${run.last > run.first ? `-${run.last}` : ""}`);
      else if (run) this.more += run.last - run.first + 1;
      run = null;
    };
    const detail = note => {
      if (this.details + (run ? 1 : 0) >= MOST_DETAILS) return;
      close();
      this.details++;
      this.notes.push(note);
    };
    const attempt = function* (frame) {
      const path = state.path(groupOf(state.place[frame])), pages = yield frame;
      told.tried++;
      if (!pages) return 0;
      told.returned++;
      told.pages += pages;
      if (run?.path === path && run.last + 1 === frame) run.last += pages;
      else if (run?.path === path && frame + pages === run.first) run.first = frame;
      else {
        close();
        run = { path, first: frame, last: frame + pages - 1 };
      }
      return pages;
    };
    const groups = state.subtree(top);
    for (const [at, share] of this.shares(top, groups, want).entries())
      if (share && told.pages < want)
        yield* this.turn(top, groups[at], 1, Math.min(share, want - told.pages), attempt, detail);
    for (const pass of state.isProtecting ? [1, 2, 3] : [1, 2]) {
      for (const group of groups)
        if (told.pages < want) yield* this.turn(top, group, pass, want - told.pages, attempt, detail);
    }
    close();
    this.notes.push(`# round ${number} tried ${told.tried} missed ${told.tried -
      told.returned} returned ${told.returned} bytes ${told.pages * PAGE} usage ${state.groups[top].current * PAGE}`);
    return told.pages;
  }
  /** What memory.min and memory.low protect of a group. */
  protections(top, group) {
    return ["min", "low"].map(key => this.state.protection(key, top, group));
  }
  /** The pages that the pass of shares wants of each of these groups; none without that pass. */
  shares(top, groups, want) {
    if (!this.sizes.isProportional) return [];
    const { groups: rows, clean } = this.state, sum = numbers => numbers.reduce((all, number) => all + number, 0);
    const gives = groups.map(group =>
      Math.max(0, Math.min(clean[group], rows[group].current - Math.max(...this.protections(top, group)))));
    const total = sum(gives) || 1, shared = Math.min(want, sum(gives)),
      rests = gives.map(pages => shared * pages % total),
      shares = gives.map((pages, at) => (shared * pages - rests[at]) / total),
      byRest = [...rests.keys()].sort((a, b) => rests[b] - rests[a]);
    for (const at of byRest.slice(0, shared - sum(shares))) shares[at]++;
    return shares;
  }
  /**
   * A group's turn in a pass: it ends at what is protected. The third pass spares what memory.min protects, and notes
   * if it took what memory.low does.
   */
  *turn(top, group, pass, want, attempt, detail) {
    const { state } = this, [inactive, active] = [groupList(group, false), groupList(group, true)],
      { current, path } = state.groups[group];
    const [min, low] = this.protections(top, group), spared = pass === 3 ? min : Math.max(min, low);
    const most = spared ? Math.min(want, Math.max(0, current - spared)) : want,
      facts = `${path} usage ${current * PAGE} min ${min * PAGE} low ${low * PAGE}`;
    let freed = 0;
    if (pass === 1 && most < Math.min(want, state.clean[group])) detail(`# spared ${facts}`);
    if (most <= 0) return;
    while (pass === 1 && state.length[active] > state.length[inactive]) this.move(state.first[active], false);
    for (const list of pass === 1 ? [inactive] : [inactive, active]) {
      const last = state.last[list];
      for (let frame = state.first[list], next; frame >= 0 && freed < most; frame = next) {
        next = frame === last ? -1 : state.next[frame];
        state.effort++;
        if (state.flags[frame] & DIRTY) continue;
        if (pass === 1 && state.flags[frame] & MARKED) this.move(frame, false);
        else freed += yield* attempt(frame);
      }
    }
    if (pass !== 3 || !freed || low <= min) return;
    yield `note-low ${group}`;
    detail(`# low ${facts}`);
  }
  /** Rounds until nothing is missing. -1 is yielded between those for the zone, if it is asked again. */
  *rounds(top, missing, isZone) {
    for (let number = 1; number <= MOST_ROUNDS; number++) {
      const want = missing();
      if (!want) return;
      const freed = yield* this.round(top, want, number);
      if (isZone) yield -1;
      if (!freed) return;
    }
  }
  reclaim(top, missing, isZone = false) {
    if (isZone) this.notes.push(`# zone order ${this.line.order}`);
    this.plan = this.rounds(top, missing, isZone);
    this.go();
  }
  /** The plan goes on: to the next frame that has to be frozen, or to a note, which is the next step. */
  go(pages) {
    const { value, done } = this.plan.next(pages), isNote = typeof value === "string";
    if (done) this.plan = null;
    if (isNote) this.owed = value;
    this.note = isNote ? value : "";
    this.expected = isNote ? -2 : done ? -1 : value;
  }
  /**
   * Rounds for each memory.high that has no room for a charge, from the group up. The note of a group is yielded before
   * its rounds.
   */
  *highs(group, pages) {
    const missing = number => this.state.missing(number, pages, "high");
    for (const { number } of this.state.up(group)) {
      if (!missing(number)) continue;
      this.noteBound("high", number, pages);
      yield `note-high ${number}`;
      yield* this.rounds(number, () => this.wanted(missing(number), pages));
    }
  }
  lookAtHighs(group, pages) {
    this.plan = this.highs(group, pages);
    this.go();
  }
  /** A round for a charge wants at least the batch of the boot; one for what was written wants what is missing. */
  wanted(missing, pages) {
    return missing && Math.max(missing, pages ? this.sizes.reclaimBatch : 1);
  }
  wantRoom(group, pages, bound) {
    this.wants = () => this.reclaim(group, () => this.wanted(this.state.missing(group, pages, bound), pages));
    this.drainBelow(new Set(this.state.subtree(group)));
  }
  /** The stocks of these groups have to be drained. */
  drainBelow(groups) {
    this.drains = this.state.parts.flatMap((part, cpu) => part && groups.has(part.group) ? [cpu] : []);
  }
  noteBound(bound, group, pages) {
    const { [bound]: most, current, path } = this.state.groups[group];
    this.notes.push(`# ${bound === "max" ? "limit" : bound} ${path} ${most * PAGE} usage ${current *
      PAGE} need ${pages * PAGE}`);
  }
  /** A limit has no room for a charge, or it or memory.high was written below the usage. */
  startsBound(bound, group, pages) {
    if (bound === "max") this.limited = group;
    this.drainedFor = group;
    this.isDraining = true;
    this.noteBound(bound, group, pages);
    this.wantRoom(group, pages, bound);
  }

  // Kills

  /** How many frames are charged to the group itself, without fresh ones. */
  framesOf(group) {
    let frames = this.state.groups[group].frames;
    for (let cpu = 1; cpu <= this.state.cpus; cpu++) {
      for (const head of this.state.listed(cpuList("n", cpu))) if (groupOf(this.state.place[head]) === group) frames--;
    }
    return frames;
  }
  chooseVictim() {
    const { state, limited } = this, [victim, next, ...more] =
      state.subtree(limited).filter(group => !state.groups[group].killed)
      .map(group => [group, this.framesOf(group)]).filter(([, frames]) => frames).sort(
      (a, b) => b[1] - a[1] || a[0] - b[0]);
    if (!victim) return;
    const path = [...state.up(victim[0])].map(group => group.number), flagged = path.slice(0, path.indexOf(limited) + 1)
      .filter(group => state.groups[group].oom_group);
    this.killedWhole = flagged.at(-1) ?? -1;
    this.dying = flagged.length ? state.subtree(this.killedWhole).filter(group => !state.groups[group].killed) :
      [victim[0]];
    this.choice = choiceOf(state, limited, this.over?.pages ?? 0, ++this.choices > MOST_CHOICES ? -1 : victim[0]);
    this.notes.push(`# victim ${state.path(victim[0])} frames ${victim[1]} of ${next ? 2 + more.length :
      1} candidates${next ? `, next ${state.path(next[0])} frames ${next[1]}` : ""}`);
    if (flagged.length) this.notes.push(`# group ${state.path(this.killedWhole)} groups ${this.dying.length}`);
  }
  /** What is still to be done for a limit without room: a note that it is out of memory, or a kill. */
  get dueForRoom() {
    const { state, limited, sizes, line: { order } } = this;
    if (limited < 0 || sizes.isNoKill || order > MOST_KILL_ORDER || !state.missing(limited, this.over?.pages ?? 0))
      return "";
    if (this.oomAt !== limited) return `note-oom ${limited}`;
    const isDead = order >= 0 && state.groups[this.group].killed;
    return !isDead && state.subtree(limited).some(group => !state.groups[group].killed && this.framesOf(group)) ?
      "a kill" : "";
  }
  endKill() {
    const { group, returned, pages, pinned } = this.killing;
    this.killing = null;
    this.notes.push(`# killed ${this.state.path(group)} returned ${returned} bytes ${pages *
      PAGE} pinned ${pinned} bytes ${this.framesOf(group) * PAGE} usage ${this.state.groups[this.limited].current *
      PAGE}`);
    if (!this.dying.length && this.killedWhole >= 0) this.owe("group-kill", this.killedWhole);
  }
  /** The unit that the kill puts next. */
  get nextPut() {
    const { state, killing } = this;
    if (!killing) return -1;
    const inactive = state.first[groupList(killing.group, false)];
    return inactive >= 0 ? inactive : state.first[groupList(killing.group, true)];
  }

  // Steps

  owe(action, number) {
    this.owed = `${action} ${number}`;
  }
  before() {
    if (!this.isOurs) return;
    if (this.due) return "the answers come after the steps of their line";
    if (!this.line && !this.isEnd) return "no line of the script comes before it";
    const { state, reader, line } = this, action = ACTIONS[reader.action][0], { seat, a } = reader;
    if (seat && line && seat !== line.cpu) return `the line is CPU ${line.cpu}'s`;
    if (line) this.lead(action, seat);
    const { owed } = this;
    if (owed && owed !== `${action} ${a}`) return `${owed} was due`;
    this.owed = null;
    if (this.isEnd) return this.fitsEnd(action, seat, reader);
    if (this.drains.length && !seat && action !== "ungrant" && !(action === "drain" && a === this.drains[0]))
      return `drain ${this.drains[0]} was due`;
    if (this.passed && !["pass-out", "take-in"].includes(action) && line.verb === "alloc" &&
      this.passed < this.sizes.batch && state.blocks[0]) {
      return "pass-out was due";
    }
    if (this.plan && this.expected >= 0 && !seat && !["return", "freeze"].includes(action) &&
      !(this.isBlock && ["grant", "place", "ungrant"].includes(action))) return `freeze ${this.expected} was next`;
    const fault = this.fits(action);
    return fault && line.isCut ? CUT : fault;
  }
  /** At the end the pins are put, each CPU is settled, and then each gives back its list and its stock. */
  fitsEnd(action, seat, { a, b }) {
    const { state, locks } = this, { cpus, holder } = state, isLast = locks > cpus;
    if (action === "lock") return seat === this.locks++ % cpus + 1 && locks < 2 * cpus ? null :
      `lock by CPU ${locks % cpus + 1} was due`;
    if (action === "unfreeze" && b !== 1) return "the zone has one reference";
    if (action === "drain") return isLast && a === holder && !this.steps++ ? null : "no drain was due";
    if (action === "unlock") this.steps = isLast && this.steps ? 0 : isLast ? -1 : 0;
    const isDone = action !== "unlock" || this.steps === 0 && !(isLast && state.count("l", holder)) && !this.hand &&
      !this.unlisted;
    return isDone && (action !== "put" || !locks) ? null : "something is left undone";
  }
  /** What begins before this step: rounds, a kill, the end of one. */
  lead(action, seat) {
    const { state, line } = this, { verb } = line;
    if (this.plan && this.expected === -1 && !this.isBlock && !["pass-out", "take-in"].includes(action)) this.go();
    if (action === "open" || seat && action !== "unlock") return;
    const settles = ["collect", "publish", "unfreeze", "absorb"].includes(action) ||
      action === "return" && !this.isOpen;
    if (!settles && !this.isOpen) this.opens();
    if (this.wants && !["drain", "ungrant"].includes(action)) {
      this.wants();
      this.wants = null;
    }
    if (this.killing && !["drain", "ungrant", "put", "return"].includes(action) && this.nextPut < 0) this.endKill();
    const part = state.parts[line.cpu];
    if (verb === "alloc" && line.order === 0 && this.isOpen && !this.plan && !this.blocked &&
      !state.count("l", line.cpu) &&
      part.group === this.group && part.pages && !part.isDrained && ["freeze", "drain"].includes(action)) {
      this.blocked = 1;
      this.reclaim(0, () => state.count("l", line.cpu) ? 0 : 1, true);
    }
    if (action === "kill" && !this.dying.length) this.chooseVictim();
    if (["freeze", "grant", "kill", "note-oom"].includes(action)) this.isDraining = false;
  }
  /** The CPU is settled: what the state is now, and what the command begins with. */
  opens() {
    const { state, line: { cpu, verb, words, order, isCut } } = this, group = this.group, it = state.groups[group];
    this.isOpen = true;
    this.own = { group, below: it?.below, current: it?.current, isKept: isGroupList(state.list[Number(words[0])] ?? 0),
      fault: verb === "mkdir" ? state.makeFault(words[0]) : 0 };
    if (verb === "rmdir" && group > 0 && !it.below) {
      this.wants = () => this.reclaim(group, () => it.current);
      this.drainBelow(new Set([group]));
    } else if (verb === "alloc" && it && !it.killed && order <= MOST_ORDER) {
      const part = state.parts[cpu];
      if (order > 0) this.lookAtHighs(group, 2 ** order);
      else if (part.group !== group || !part.pages) {
        this.drains = [cpu];
        this.wants = () => this.chargeFrame(group);
      }
    } else if (verb === "write" && SETTINGS.includes(words[1]) && group > 0 && !isCut) {
      const pages = this.amount, setting = settingOf(words[1]);
      if (pages === null || pages === undefined) return;
      it[setting] = pages;
      state.touched.groups.add(group);
      this.isSet = true;
      if (setting === "high" && state.missing(group, 0, setting)) this.startsBound(setting, group, 0);
    } else if (verb === "write" && words[1] === "memory.reclaim" && group > 0) {
      const asked = this.amount, before = it.current;
      if (asked) this.notes.push(`# asked ${it.path} ${BigInt(asked) * BigInt(PAGE)}`);
      if (asked) this.reclaim(group, () => Math.max(0, asked - (before - it.current)));
    }
  }
  /** A batch isn't tried if some memory.high has no room for it. Then that is looked at for one page. */
  chargeFrame(group) {
    const { state, sizes } = this;
    if (![...state.up(group)].some(({ number }) => state.missing(number, sizes.stock, "high"))) return;
    this.steps = 1;
    this.lookAtHighs(group, 1);
  }
  /** Whether the step is one of this command, here. */
  fits(action) {
    const { state, reader: { seat, a, b, c, path }, line: { cpu, verb, words, order, isVague } } = this,
      part = state.parts[cpu];
    const frame = Number(words[0]),
      isWrite = file => verb === "write" && words[1] === file && a === this.group && !this.isSet;
    const need = (holds, why = `\`${verb}\` doesn't make it`) => holds ? null : why;
    if (["get", "put", "fast"].includes(verb)) {
      return need(action === { get: "get", put: "put", fast: "consume" }[verb] && seat && a === frame && !this.steps++);
    }
    const isAlloc = verb === "alloc" && a === this.group;
    switch (action) {
      case "lock":
        return need(!this.locks++, "the line has the lock once");
      case "shut": {
        const due = this.dueForRoom;
        return need(!due && this.isOpen && !state.count("b", cpu), due ? `${due} was due` : "the CPU isn't settled");
      }
      case "freeze":
        return need(a === this.expected && b === 1,
        `${this.expected < 0 ? "no freeze" : `freeze ${this.expected} 1`} was next`);
      case "unfreeze":
        return need(b === 1, "the zone has one reference");
      case "report":
        return need(a === part.unreported, `report ${part.unreported} was due`);
      case "pass-out":
        return need(verb === "alloc" ? order === 0 && this.isOpen && this.was.list === 0 &&
        this.passed < this.sizes.batch :
          verb === "release" && a === frame && this.left === "last" &&
          this.givenBack === (this.isFull ? this.sizes.batch : 0));
      case "pass-back":
        return need(isGroupUnit(state, a) || (verb === "alloc" ? order > 0 && this.blocked === 1 : this.isFull));
      case "publish":
        return need(!state.list[a], "it was published");
      case "put":
        return need(!seat && (this.killing ? a === this.nextPut : verb === "release" && a === frame),
        this.killing ? `put ${this.nextPut} was due` : undefined);
      case "credit":
        return need(verb === "release" && a === frame);
      case "consume":
        return need(isAlloc && order === 0);
      case "grant":
        return need(isAlloc && b === (order || this.steps++ ? 2 ** order : this.sizes.stock),
        `\`${verb}\` doesn't charge so`);
      case "place":
        return need(isAlloc && b === order);
      case "fill":
        return need(verb === "alloc" && order === 0 && a === cpu && b === this.group && c === this.granted,
        `\`${verb}\` doesn't fill so`);
      case "drain":
        return need(this.drains.length || verb === "alloc" && order === 0 && a === cpu && this.blocked &&
        this.expected < 0);
      case "make":
        return need(verb === "mkdir" && path === words[0]);
      case "remove":
        return need(verb === "rmdir" && a === this.group);
      case "limit":
        return need(isWrite("memory.max") && (isVague || b === pagesOf(words[2], true)), "it is another limit");
      case "flag":
        return need(isWrite("memory.oom.group") &&
        (isVague || `${b}` === words[2].replace(/^[ \t-\r]+|[ \t-\r]+$/g, "")), "it is another flag");
      case "note-low":
        return need(this.note === `${action} ${a}`, "no memory.low was broken");
      case "note-high":
        return need(this.note === `${action} ${a}`, "no memory.high is exceeded");
      case "note-max":
        return need(this.over && a === this.over.group, "no limit refused");
      case "note-oom":
        return need(!this.sizes.isNoKill && a === this.limited && !this.killing &&
        state.missing(a, this.over?.pages ?? 0),
        this.sizes.isNoKill ? "the boot kills nobody" :
        `${this.limited < 0 ? "no limit" : `group ${this.limited}`} is out of memory`);
      case "kill":
        return need(!this.sizes.isNoKill && a === this.dying[0],
        this.dying.length ? `kill ${this.dying[0]} was due` : "no group was due");
      case "group-kill":
        return need(a === this.killedWhole && !this.dying.length, "no group was killed as a whole");
      case "unlock":
        return need(!this.hand && !this.unlisted && !this.dying.length && this.nextPut < 0, "something is left undone");
      default:
        return null;
    }
  }
  after() {
    if (!this.isOurs) return;
    const { state, reader, line } = this, action = ACTIONS[reader.action][0], { seat, a, b, c, answer, n } = reader;
    const isDone = answer === DONE;
    switch (action) {
      case "lock":
        this.owe("open", seat);
        break;
      case "unlock":
        this.sawNone[seat] = state.parts[seat].pages || state.parts[seat].isDrained ? 0 : 1;
        break;
      case "unfreeze":
        this.hand--;
        this.unlisted++;
        this.owe("publish", a);
        break;
      case "pass-out":
        this.passed++;
        this.owe("take-in", a);
        break;
      case "pass-back":
        if (state.isHead(a) && state.stage[a] === FRESH_OUT) this.owe("report", 1);
        else this.owe("collect", a);
        if (!state.isHead(a)) this.givenBack++;
        break;
      case "report":
        for (const [frame] of state.passer) this.owe("collect", frame);
        break;
      case "absorb":
        this.owe(state.groups[groupOf(state.place[this.fresh])].killed ? "return" : "unfreeze", this.fresh);
        break;
      case "publish":
        this.unlisted--;
        if (isGroupList(state.list[a])) break;
        state.add(groupList(groupOf(state.place[a]), false), a);
        break;
      case "collect":
        if (!state.isHead(a)) break;
        this.hand++;
        this.fresh = a;
        if (state.stage[a] === COLLECTED) this.owe("absorb", b);
        else this.owe("return", a);
        break;
      case "put":
        this.left = state.answerText(answer);
        if (seat) {
          this.pinsPut++;
          break;
        }
        this.lose(a);
        if (answer === LAST) {
          this.hand++;
          this.owe("return", a);
          this.isFull = state.count("l", line?.cpu ?? 1) >= this.sizes.high;
        }
        if (this.killing && answer === LAST) {
          this.killing.returned++;
          this.killing.pages += 2 ** orderOf(state.place[a]);
        } else if (this.killing) this.killing.pinned++;
        break;
      case "freeze":
        if (isDone) {
          this.lose(a);
          this.hand++;
          this.freed = 2 ** orderOf(state.place[a]);
          this.owe("return", a);
        } else if (this.plan) this.go(0);
        break;
      case "return": {
        const freed = this.freed;
        this.hand--;
        this.freed = 0;
        if (this.plan && freed) this.go(freed);
        break;
      }
      case "grant":
        if (answer === OVER) {
          this.over = { group: n, pages: b };
          if (line.order > 0 || b === 1 && this.steps > 1) this.owe("note-max", n);
        } else {
          this.over = null;
          this.granted = b;
        }
        break;
      case "note-low":
      case "note-high":
        this.go();
        break;
      case "note-max":
        this.startsBound("max", a, this.over.pages);
        break;
      case "limit":
        this.isSet = true;
        if (state.missing(a, 0)) this.startsBound("max", a, 0);
        break;
      case "flag":
        this.isSet = true;
        break;
      case "drain":
        if (this.drains.length) this.drains.shift();
        if (this.isDraining) this.drained = { cpu: a, pages: n };
        if (this.isDraining && !n) this.tellDrain();
        if (n) this.owe("ungrant", state.parts[a].group);
        break;
      case "ungrant":
        if (this.isDraining && this.drained) this.tellDrain();
        if (this.behindUngrant === "go") this.go();
        else if (this.behindUngrant === "begin") {
          this.isPlaced = false;
          this.isBlock = true;
          this.reclaim(0, () => this.isPlaced ? 0 : 2 ** line.order, true);
        }
        this.behindUngrant = "";
        break;
      case "place":
        if (answer === NO_BLOCK) this.owe("ungrant", a);
        else this.owe("unfreeze", n);
        if (answer === NO_BLOCK)
          this.behindUngrant = this.plan && this.expected === -1 ? "go" : ++this.blocked === 2 ? "begin" : "";
        else {
          this.hand++;
          this.placed = n;
          this.isPlaced = true;
          if (this.plan) this.go();
        }
        break;
      case "note-oom":
        this.notes.push(`# oom ${state.path(a)}`);
        this.oomAt = a;
        break;
      case "kill":
        this.dying.shift();
        this.killing = { group: a, returned: 0, pages: 0, pinned: 0 };
        this.drainBelow(new Set([a]));
        break;
      case "group-kill":
        this.killedWhole = -1;
        break;
      case "fill":
        this.sawNone[a] = c ? 0 : 1;
        break;
      case "consume":
        if (answer === TOOK) this.took = state.last[cpuList("n", seat)];
        if (answer === TOOK) this.sawNone[seat] = state.parts[seat].pages ? 0 : 1;
        break;
      case "credit":
        this.isListed = answer === BACK;
        if (this.isListed) this.sawNone[seat] = state.parts[seat].pages ? 0 : 1;
        break;
      case "get":
        this.got = ANSWERS[answer][0];
        break;
      case "make":
        this.made = n;
        break;
      case "remove":
        this.isRemoved = true;
        break;
      case "shut":
        if (line) this.marks();
        this.owe("unlock", 0);
        break;
    }
  }
  tellDrain() {
    this.notes.push(`# stock ${this.drained.cpu} bytes ${this.drained.pages *
      PAGE} usage ${this.state.groups[this.drainedFor].current * PAGE}`);
    this.drained = null;
  }
  /** What isn't a step: uses, dirty and clean units. */
  marks() {
    const { state, line: { verb, words } } = this, frame = Number(words[0]);
    if (!["touch", "dirty", "clean"].includes(verb) || !isGroupList(state.list[frame])) return;
    const isActive = state.list[frame] === groupList(groupOf(state.place[frame]), true);
    if (verb !== "touch") state.soil(frame, verb === "dirty");
    else if (isActive || state.flags[frame] & MARKED) this.move(frame, true);
    else state.flags[frame] |= MARKED;
    this.left = isActive || !(state.flags[frame] & MARKED) ? "active" : "marked";
    state.touched.frames.push(frame);
  }

  // Answers

  /** The comments due after a line: its answer and its explanation. null stands for one that can't be known. */
  answers(given) {
    if (this.isEnd) return this.locks === 2 * this.state.cpus ? this.report() :
      [`lock by CPU ${this.locks % this.state.cpus + 1}`];
    const { isCut, isVague } = this.line,
      isRefusal = isVague && !this.isSet && [12, 13].some(number => given === `# = ${refused(number)}`);
    const answer = isRefusal || isCut && given ? given.slice(4) : this.answer();
    if (this.more) this.notes.push(`# reclaimed ${this.more} more frames`);
    const lines = isCut ? [null] : answer === null ? [`a step of \`${this.line.verb}\``] :
      answer.split("\n").map(line => `# = ${line}`.slice(0, MOST_LINE));
    return [...lines, ...this.reason(answer), ...this.notes.map(note => note.slice(0, MOST_LINE))];
  }
  /**
   * The line that explains a refusal. Of a text that is no limit it says what the files take. A frame that isn't kept
   * may be a CPU's.
   */
  reason(answer) {
    const [, number] = /^refused (\d+) /.exec(answer ?? "") ?? [], { verb, words, isCut } = this.line;
    if (!Object.hasOwn(REFUSALS, number)) return [];
    if (isCut && number === "20") return [null];
    const isNamed = ["release", "touch", "dirty", "clean"].includes(verb),
      [, cpu] = number === "20" && isNamed && /^cpu (\d+)$/.exec(ownerOf(this.state, Number(words[0]))) || [];
    const more = number === "12" ? `; ${VALUES}` :
      cpu ? `; it is on CPU ${cpu}'s list, or fresh there until CPU ${cpu} settles` : "";
    return [`# refused ${number}: ${REFUSALS[number][1]}${more}`];
  }
  /** The answer that the steps and the state make due; null if the steps aren't those of the command. */
  answer() {
    const { state, own, was: before, line: { cpu, verb, words, order } } = this, group = state.groups[this.group];
    const kept = text => own?.isKept ? text : own ? refused(20) : null;
    switch (verb) {
      case "get":
        return this.got || (before.isFull ? refused(9) :
        before.live === 0 ? "zero" : before.live === MOST_REFERENCES ? "full" : null);
      case "put":
        return this.left || (before.pins ? null : refused(21));
      case "fast":
        return this.took >= 0 ? `frame ${this.took}` :
        before.fresh >= MOST_FRESH ? "fresh-full" : !before.list ? "list-empty" :
          before.group !== this.group ? "other-group" :
          before.sawNone ? "no-stock" : before.isDrained ? "drained" : null;
      case "release":
        return this.isListed ? "listed" : kept(this.left === "last" ? "returned" : this.left || null);
      case "alloc":
        if (this.took >= 0) return `frame ${this.took}`;
        if (this.placed >= 0) return `frame ${this.placed}`;
        if (!own || !group) return !group && !own === (order === 0) ? refused(6) : null;
        if (order > MOST_ORDER) return refused(19);
        if (group.killed) return refused(18);
        return this.over ? refused(15, state.path(this.over.group)) : this.plan || this.blocked ? refused(16) : null;
    }
    if (!own) return null;
    switch (verb) {
      case "settle":
        return "settled";
      case "touch":
        return kept(this.left);
      case "dirty":
      case "clean":
        return kept("ok");
      case "owner":
        return ownerOf(state, Number(words[0]));
      case "show":
        return shownBy(state);
      case "blocks":
        return blocksOf(state);
      case "stock":
        return stockOf(state, cpu);
      case "units":
        return group ? unitsOf(state, group.number) : refused(6);
      case "mkdir":
        return own.fault ? refused(own.fault) : this.made < 0 ? null : `group ${this.made}`;
      case "rmdir":
        return this.isRemoved ? "ok" : words[0] === "/" ? refused(3) :
        own.group < 0 ? refused(6) : own.below ? refused(7) :
          group.current ? refused(8) : null;
      default:
        return own.group < 0 ? refused(6) : !Object.hasOwn(FILES, words[1]) || !own.group ? refused(10) :
        verb === "read" ?
          words[1] === "memory.reclaim" ? refused(22) :
          words[1] === "memory.stat" ? statOf(state, own.group) : readOf(group, words[1]) :
          this.written(group);
    }
  }
  written(group) {
    const [, file, value] = this.line.words;
    if (!FILES[file].includes("w")) return refused(11);
    if (file === "memory.oom.group") {
      const found = /^[ \t-\r]*([01])[ \t-\r]*$/.exec(value);
      return this.isSet ? "ok" : found ? null : refused(12);
    }
    if (this.isSet) return "ok";
    const pages = this.line.isVague && file === "memory.max" ? group.max : this.amount;
    if (pages === null || pages === undefined) return refused(pages === null ? 12 : 13);
    if (file !== "memory.reclaim") return null;
    return this.own.current - group.current >= pages ? "ok" : refused(17);
  }
  /** The report of the end. */
  report() {
    const { state } = this, free = state.blocks[0], { puts, freezes, drops, returns } = state;
    const lines = [`audit frames ${state.frames} free ${free} charged ${state.frames - free}`,
      `audit puts ${puts} freezes ${freezes} drops ${drops} returns ${returns}`];
    return (this.pinsPut ? [`held ${this.pinsPut}`, ...lines] : lines).map(line => `# = ${line}`);
  }
}
