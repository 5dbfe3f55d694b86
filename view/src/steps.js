// Each action: its name, its seat, its numbers (as those of answers; l is a limit, f a flag, p a path), and its rule. A
// rule says what answer is due, and takes effect if that answer was given: `on` is the state, `cpu` the part of its
// seat.

import {
  BACK, BARE, COLLECTED, DONE, DRAINED, EMPTY, ENDED, FRESH, FRESH_OUT, FULL, GRANTED, HELD, ILLEGAL, IN, IN_USE,
  LAST, LAST_PUT, LEFT, LISTED, MISSED, MOST_FRESH, MOST_PINS, MOST_REFERENCES, NO_BLOCK, NUMBER, OTHER_GROUP, OUT,
  OVER, PAGES, PLACED, TOOK, ZERO, codesOf, cpuList, groupOf, orderOf, parentPath
} from "./state.js";

/** @type {[string, string, string, (on: any, step: any, cpu: any) => number][]} */
export const ACTIONS = [
  ["lock", "cpu", "", (on, { seat, answer }) => {
    if (on.holder) return ILLEGAL;
    if (answer === DONE) on.holder = seat;
    return DONE;
  }],
  ["unlock", "cpu", "", (on, { seat, answer }) => {
    if (on.holder !== seat || on.visit || on.pending || on.transit) return ILLEGAL;
    if (answer === DONE) on.holder = 0;
    return DONE;
  }],
  ["open", "0", "n", (on, { a, answer }) => {
    if (a !== on.holder || on.visit) return ILLEGAL;
    if (answer === DONE) on.visit = a;
    return DONE;
  }],
  ["shut", "0", "n", (on, { a, answer }) => {
    if (!a || on.visit !== a || on.parts[a].transit || on.parts[a].unreported || on.parts[a].reported) return ILLEGAL;
    if (answer === DONE) on.visit = 0;
    return DONE;
  }],
  ["get", "cpu", "n", (on, { a, seat, answer }, cpu) => {
    if (a >= on.frames || cpu.pinned + on.count("b", seat) >= MOST_PINS) return ILLEGAL;
    const due = on.live[a] === 0 ? ZERO : on.live[a] < MOST_REFERENCES ? HELD : FULL;
    if (due === HELD && answer === HELD) pin(on, seat, a, 1);
    return due;
  }],
  ["put", "*", "n", (on, { a, seat, answer, n }, cpu) => {
    if (a >= on.frames || !(cpu ? cpu.pins.get(a) : on.kept[a])) return ILLEGAL;
    on.n = on.live[a] - 1;
    const due = on.n ? LEFT : LAST;
    if (answer !== due || n !== on.n) return due;
    if (cpu) pin(on, seat, a, -1);
    else {
      on.live[a]--;
      on.kept[a]--;
      on.touched.frames.push(a);
    }
    if (due === LAST) {
      on.puts++;
      if (cpu) {
        on.add(cpuList("b", seat), a);
        on.set(a, on.place[a], LAST_PUT);
      } else on.ended(a);
    }
    return due;
  }],
  ["freeze", "0", "nn", (on, { a, b, answer }) => {
    if (a >= on.frames || b < 1 || on.kept[a] < b) return ILLEGAL;
    const due = on.live[a] === b ? DONE : MISSED;
    if (due === DONE && answer === DONE) {
      on.ended(a);
      on.freezes++;
    }
    return due;
  }],
  ["unfreeze", "0", "nn", (on, { a, b, answer }) => {
    if (a >= on.frames || b < 1 || b > MOST_REFERENCES || ![BARE, COLLECTED, ENDED].includes(on.stage[a]))
      return ILLEGAL;
    if (answer === DONE) {
      on.live[a] = on.kept[a] = b;
      on.set(a, on.place[a], IN_USE);
    }
    return DONE;
  }],
  ["pass-out", "0", "nn", (on, { a, b, answer }) => {
    if (a >= on.frames || !b || on.visit !== b || !on.isFreeBlock(a, 0)) return ILLEGAL;
    if (answer === DONE) {
      on.take(a, 0);
      on.set(a, b, IN);
      on.lent++;
      on.moved(b, 1);
    }
    return DONE;
  }],
  ["take-in", "cpu", "n", (on, { a, seat, answer }) => {
    if (a >= on.frames || on.stage[a] !== IN || on.place[a] !== seat) return ILLEGAL;
    if (answer === DONE) {
      on.stage[a] = LISTED;
      on.add(cpuList("l", seat), a);
      on.moved(seat, -1);
    }
    return DONE;
  }],
  ["pass-back", "cpu", "n", (on, { a, seat, answer }, cpu) => {
    if (a >= on.frames || on.visit !== seat) return ILLEGAL;
    const list = on.list[a], isFresh = list === cpuList("n", seat);
    if (on.first[cpuList("l", seat)] !== a && !isFresh && list !== cpuList("b", seat)) return ILLEGAL;
    if (answer === DONE) {
      on.remove(a);
      on.stage[a]++; // the stage of a frame that is passed back is the one behind
      on.moved(seat, 1);
      if (isFresh) cpu.unreported++;
      on.passer.set(a, seat);
    }
    return DONE;
  }],
  ["collect", "0", "nn", (on, { a, b, answer }) => {
    if (a >= on.frames || on.passer.get(a) !== b) return ILLEGAL;
    if (answer === DONE) {
      on.moved(b, -1);
      on.passer.delete(a);
      if (on.stage[a] === OUT) {
        on.lent--;
        on.free(a, 0);
      } else on.set(a, on.place[a], on.stage[a] === FRESH_OUT ? COLLECTED : ENDED);
    }
    return DONE;
  }],
  ["consume", "cpu", "g", (on, { a, seat, answer }, cpu) => {
    const frame = on.first[cpuList("l", seat)];
    if (frame < 0 || on.count("n", seat) >= MOST_FRESH) return ILLEGAL;
    const due = cpu.group !== a ? OTHER_GROUP : cpu.isDrained ? DRAINED : cpu.pages ? TOOK : EMPTY;
    if (due === TOOK && answer === TOOK) {
      cpu.pages--;
      on.lent--;
      on.remove(frame);
      on.add(cpuList("n", seat), frame);
      on.charged(frame, a, 0, FRESH);
    }
    return due;
  }],
  ["credit", "cpu", "n", (on, { a, seat, answer }, cpu) => {
    if (a >= on.frames || on.list[a] !== cpuList("n", seat)) return ILLEGAL;
    if (!cpu.isDrained && answer === BACK) {
      cpu.pages++;
      on.lent++;
      on.groups[groupOf(on.place[a])].frames--;
      on.touched.usages.add(groupOf(on.place[a]));
      on.remove(a);
      on.add(cpuList("l", seat), a);
      on.set(a, seat, LISTED);
      on.drops++;
      on.returns++;
    }
    return cpu.isDrained ? DRAINED : BACK;
  }],
  ["report", "cpu", "n", (on, { a, seat, answer }, cpu) => {
    if (on.visit !== seat || cpu.unreported < a) return ILLEGAL;
    if (answer === DONE) {
      cpu.unreported -= a;
      cpu.reported += a;
    }
    return DONE;
  }],
  ["absorb", "0", "n", (on, { a, answer, n }) => {
    if (!a || on.visit !== a) return ILLEGAL;
    const cpu = on.parts[a];
    on.n = cpu.reported;
    if (answer === PAGES && n === on.n) {
      cpu.book -= n;
      cpu.reported = 0;
    }
    return PAGES;
  }],
  ["fill", "0", "ngn", (on, { a, b, c, answer }) => {
    if (!a || on.visit !== a || !on.groups[b]) return ILLEGAL;
    const cpu = on.parts[a];
    if (cpu.pages || cpu.book && cpu.group !== b || on.groups[b].pending < c) return ILLEGAL;
    if (answer === DONE) {
      on.pend(b, -c);
      Object.assign(cpu, { group: b, pages: c, isDrained: false, book: cpu.book + c });
      on.touched.cpus.add(a);
    }
    return DONE;
  }],
  ["drain", "0", "n", (on, { a, answer, n }) => {
    if (!a || a > on.cpus) return ILLEGAL;
    const cpu = on.parts[a];
    on.n = cpu.pages;
    if (answer === PAGES && n === on.n) {
      if (n) on.pend(cpu.group, n);
      Object.assign(cpu, { pages: 0, isDrained: cpu.group >= 0, book: cpu.book - n });
      on.touched.cpus.add(a);
    }
    return PAGES;
  }],
  ["grant", "0", "gn", (on, { a, b, answer }) => {
    if (!on.groups[a] || on.groups[a].killed) return ILLEGAL;
    for (const above of on.up(a)) {
      if (on.missing(above.number, b)) {
        on.n = above.number;
        return OVER;
      }
    }
    if (answer === GRANTED) {
      on.pend(a, b);
      on.charge(a, b);
    }
    return GRANTED;
  }],
  ["ungrant", "0", "gn", (on, { a, b, answer }) => {
    if (!on.groups[a] || on.groups[a].pending < b) return ILLEGAL;
    if (answer === DONE) {
      on.pend(a, -b);
      on.charge(a, -b);
    }
    return DONE;
  }],
  ["place", "0", "gk", (on, { a, b, answer, n, m }) => {
    if (!on.groups[a] || on.groups[a].pending < 2 ** b) return ILLEGAL;
    if (!on.blocks[b]) return NO_BLOCK;
    on.m = b;
    if (answer === PLACED && m === b && n < on.frames && on.isFreeBlock(n, b)) {
      on.n = n;
      on.take(n, b);
      on.charged(n, a, b, BARE);
      on.pend(a, -(2 ** b));
    } else on.n = on.freeBlocks(b).next().value[1]; // the one that `memcg check` names
    return PLACED;
  }],
  ["publish", "0", "n", (on, { a }) => a < on.frames && on.kept[a] ? DONE : ILLEGAL],
  ["return", "0", "n", (on, { a, answer }) => {
    if (a >= on.frames || !on.isHead(a)) return ILLEGAL;
    const group = groupOf(on.place[a]), order = orderOf(on.place[a]), isDropped = on.stage[a] === COLLECTED;
    if (on.stage[a] !== ENDED && !(isDropped && on.groups[group].killed)) return ILLEGAL;
    if (answer === DONE) {
      on.charge(group, -(2 ** order));
      on.groups[group].frames -= 2 ** order;
      on.free(a, order);
      if (isDropped) on.drops++;
      on.returns++;
    }
    return DONE;
  }],
  ["note-low", "0", "g", (on, step) => counted(on, step, "low")],
  ["note-high", "0", "g", (on, step) => counted(on, step, "high")],
  ["note-max", "0", "g", (on, step) => counted(on, step, "max")],
  ["note-oom", "0", "g", (on, step) => counted(on, step, "oom")],
  ["group-kill", "0", "g", (on, step) => step.a ? counted(on, step, "group_kill") : ILLEGAL],
  ["limit", "0", "gl", (on, step) => step.a ? sets(on, step, "max") : ILLEGAL],
  ["flag", "0", "gf", (on, step) => step.a ? sets(on, step, "oom_group") : ILLEGAL],
  ["make", "0", "p", (on, { path, answer, n }) => {
    if (on.makeFault(path)) return ILLEGAL;
    on.n = on.groups.indexOf(null);
    if (answer === NUMBER && n === on.n) on.born(path, n, on.numbers.get(parentPath(path)));
    return NUMBER;
  }],
  ["remove", "0", "g", (on, { a, answer }) => {
    const group = on.groups[a];
    if (!a || !group || group.below || group.current) return ILLEGAL;
    if (answer === DONE) {
      on.numbers.delete(group.path);
      on.groups[group.parent].below--;
      on.groups[a] = null;
      on.touched.groups.add(a);
    }
    return DONE;
  }],
  ["kill", "0", "g", (on, step) => {
    if (on.groups[step.a]?.killed) return ILLEGAL;
    const due = counted(on, step, "kill");
    if (due === DONE && step.answer === DONE) on.groups[step.a].killed = 1;
    return due;
  }],
];
export const ACTION_CODES = codesOf(ACTIONS);

/**
 * The answer due to a step, whose numbers are then in `n` and `m` of the state. If it is the answer that was given, the
 * step takes effect.
 */
export function answerTo(on, step) {
  const [, seat, , rule] = ACTIONS[step.action];
  on.n = on.m = 0;
  on.effort++;
  if (step.seat > on.cpus || (step.seat ? seat === "0" : seat === "cpu" || !on.holder)) return ILLEGAL;
  if (step.seat) on.touched.cpus.add(step.seat);
  return rule(on, step, step.seat ? on.parts[step.seat] : null);
}
function pin(on, seat, frame, by) {
  const cpu = on.parts[seat], pins = (cpu.pins.get(frame) ?? 0) + by;
  if (pins) cpu.pins.set(frame, pins);
  else cpu.pins.delete(frame);
  cpu.pinned += by;
  on.live[frame] += by;
  on.touched.pins.push(seat, frame);
  on.touched.frames.push(frame);
}
function counted(on, { a, answer }, event) {
  if (!on.groups[a]) return ILLEGAL;
  if (answer === DONE) on.countEvent(a, event);
  return DONE;
}
function sets(on, { a, b, answer }, name) {
  if (!on.groups[a]) return ILLEGAL;
  if (answer === DONE) on.groups[a][name] = b;
  on.touched.groups.add(a);
  return DONE;
}
