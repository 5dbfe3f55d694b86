// The lines of a log, and the run of its steps

import { reasonOf } from "./reasons.js";
import {
  ANSWERS, ANSWER_CODES, DEFAULT_GROUPS, MOST_CPUS, MOST_FRAMES, MOST_GROUPS, MOST_LINE, MOST_NUMBER, MOST_ORDER, State
} from "./state.js";
import { ACTIONS, ACTION_CODES, answerTo } from "./steps.js";

const [SPACE, HASH, DIGIT] = [32, 35, 48];

/** Why a text that is that of no line is none. */
const noLine = text => text.startsWith("\xef\xbb\xbf") ? "it begins with a UTF-8 byte order mark: a log is plain ASCII"
  : text.startsWith("\x1f\x8b") ? "it looks like gzip: a log is plain ASCII"
  : text.includes("\0") ? "it looks like UTF-16: a log is plain ASCII"
  : text.endsWith("\r") ? "it ends with a carriage return: the log has Windows line ends" :
  "it is neither a step nor sizes";

/**
 * Reads the lines of a log, a text with a character for each byte. `next` says what a line is, and leaves what it holds
 * in
 * the fields.
 */
class Reader {
  why = "";
  path = "";
  isSized = false;
  at = 0; line = 0; start = 0; end = 0; to = 0; from = 0; until = 0; value = 0; frames = 0; cpus = 0; groups = 0;
  seat = 0; action = 0; a = 0; b = 0; c = 0; answer = 0; n = 0; m = 0;
  /** @param {string} log */
  constructor(log) {
    this.log = log;
  }
  /** "zone", "step", "comment", "empty", "bad" or "end". */
  next() {
    const { log } = this;
    if (this.at < log.length || !this.isSized) this.line++;
    if (this.at >= log.length) return this.isSized ? "end" : this.bad("the sizes are missing");
    const end = log.indexOf("\n", this.at);
    if ((end < 0 ? log.length : end) - this.at > MOST_LINE) return this.bad("it has more than 1024 bytes");
    if (end < 0) return this.bad("it has no line feed");
    this.start = this.to = this.at;
    this.end = end;
    this.at = end + 1;
    if (end === this.start) return "empty";
    const first = log.charCodeAt(this.start);
    if (first === HASH) return "comment";
    const wasSized = this.isSized, isZone = first === 122; // z
    if (!(isZone ? this.zone() : this.step())) return this.bad(noLine(log.slice(this.start, end)));
    if (isZone === wasSized) return this.bad(isZone ? "the sizes were given before" : "the sizes come first");
    return isZone ? "zone" : "step";
  }
  bad(why) {
    this.why = why;
    return "bad";
  }
  get text() {
    return this.log.slice(this.start, this.end);
  }
  /**
   * The next word is from `from` until `until`. It has a byte or more, and one space after it or the end of the line.
   */
  word() {
    const from = this.to;
    let until = from;
    while (until < this.end && this.log.charCodeAt(until) !== SPACE) until++;
    this.from = from;
    this.until = until;
    this.to = until === this.end ? until : until + 1;
    return until > from && (until === this.end || this.to < this.end);
  }
  name() {
    return this.word() ? this.log.slice(this.from, this.until) : "";
  }
  number(most) {
    const digits = this.word() ? this.until - this.from : 0;
    if (!digits || digits > 10 || digits > 1 && this.log.charCodeAt(this.from) === DIGIT) return false;
    this.value = 0;
    for (let at = this.from; at < this.until; at++) {
      const digit = this.log.charCodeAt(at) - DIGIT;
      if (digit < 0 || digit > 9) return false;
      this.value = this.value * 10 + digit;
    }
    return this.value <= most;
  }
  /** A number of 64 bits. One that JavaScript has no exact number for is -1: none such is ever due. */
  wide() {
    const text = this.name();
    if (!/^(0|[1-9][0-9]{0,19})$/.test(text) || text.length === 20 && text > "18446744073709551615") return false;
    this.value = Number(text) <= Number.MAX_SAFE_INTEGER ? Number(text) : -1;
    return true;
  }
  part(kind) {
    switch (kind) {
      case "n":
        return this.number(MOST_NUMBER);
      case "g":
        return this.number(MOST_GROUPS - 1);
      case "k":
        return this.number(MOST_ORDER);
      case "f":
        return this.number(1);
      case "w":
        return this.wide();
      case "l":
        if (this.log.charCodeAt(this.to) !== 109) return this.number(MOST_NUMBER); // m
        this.value = -1;
        return this.name() === "max";
      default:
        this.path = this.name();
        return /^[!-~]{1,512}$/.test(this.path);
    }
  }
  /** Reads numbers of these kinds into these fields. */
  parts(kinds, fields) {
    for (let at = 0; at < kinds.length; at++) {
      if (!this.part(kinds[at])) return false;
      this[fields[at]] = this.value;
    }
    return true;
  }
  zone() {
    const { frames, cpus, groups } = this,
      isZone = this.name() === "zone" && this.parts("nn", ["frames", "cpus"]) && this.mostGroups() &&
      this.frames >= 1 && this.frames <= MOST_FRAMES && this.cpus >= 1 && this.cpus <= MOST_CPUS;
    if (this.isSized) Object.assign(this, { frames, cpus, groups });
    this.isSized ||= isZone;
    return isZone;
  }
  /** How many groups may exist at once: the rest of the sizes, which is left out of the default. */
  mostGroups() {
    this.groups = DEFAULT_GROUPS;
    return this.to === this.end || this.name() === "groups" && this.parts("n", ["groups"]) && this.to === this.end &&
      this.groups >= 1 && this.groups <= MOST_GROUPS && this.groups !== DEFAULT_GROUPS;
  }
  step() {
    if (!this.number(MOST_NUMBER)) return false;
    this.seat = this.value;
    this.action = ACTION_CODES.get(this.name());
    this.a = this.b = this.c = this.n = this.m = 0;
    if (this.action === undefined || !this.parts(ACTIONS[this.action][2], "abc") || this.name() !== ">") return false;
    this.answer = ANSWER_CODES.get(this.name());
    return this.answer !== undefined && this.parts(ANSWERS[this.answer][1], "nm") && this.until === this.end;
  }
}

/**
 * Reads a log and runs its steps. It yields before each line, so that who calls can stop between them, and returns the
 * verdict: its status and words are those of `memcg check`, but that a log of memcg is also held to what it says beside
 * its steps. `seen` is told of the sizes by `zone(state, reader)`, of each step by `before()` and `after()`, of a
 * comment by
 * `comment()`, and of the end by `end()`. What doesn't fit is returned by `before`, `comment` and `end`.
 */
export function* run(log, seen = {}) {
  const reader = new Reader(log);
  let state = null, steps = 0;
  const verdict = (status, text) => ({ status, text, line: reader.line, steps });
  for (;;) {
    const kind = reader.next();
    let fault = null;
    if (kind === "bad") return verdict(2, `bad line ${reader.line}: ${reader.why}`);
    if (kind === "zone") {
      state = new State(reader.frames, reader.cpus, reader.groups);
      seen.zone?.(state, reader);
    } else if (kind === "comment") fault = seen.comment?.();
    else if (kind === "end") fault = seen.end?.();
    else if (kind === "step") {
      steps++;
      const misfit = seen.before?.(), due = answerTo(state, reader);
      if (due !== reader.answer || state.n !== reader.n || state.m !== reader.m) {
        fault = `step ${steps} is not legal: ${state.answerText(due)} was due: ${reasonOf(state, reader, due)}`;
      } else if (misfit) fault = `step ${steps} doesn't fit: ${misfit}`;
      else seen.after?.();
    }
    if (fault) return verdict(1, `line ${reader.line}: ${fault}`);
    if (kind === "end") return verdict(0, `legal: ${steps} steps, the promise holds`);
    yield;
  }
}
