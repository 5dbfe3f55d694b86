// A log becomes a run

import { SECONDS, isDigit } from "./commands.js";
import { Follower, choiceOf } from "./follower.js";
import { run } from "./reader.js";
import { EVENT_STEPS, KILLS, LOCKED, REFUSED, Run } from "./run.js";
import { ANSWERS, ILLEGAL, MISSED, NO_BLOCK, OVER } from "./state.js";
import { ACTIONS } from "./steps.js";

/** Runs a log, and records each position. It yields how far it is, and returns the run with the verdict. */
export function* load(log) {
  const follower = new Follower();
  /** @type {any} */
  let drawn = null;
  /** @type {any} */
  let reader = null;
  /** @type {any} */
  let state = null;
  /** @type {any} */
  let over = null;
  /** @type {any} */
  let limited = null;
  let isOpen = false, remarks = [];
  const closes = () => {
    if (isOpen) drawn.close(state);
    isOpen = false;
  };
  /** A step was made, and not answered `illegal`: then its group exists. */
  const made = action => {
    if (action === "kill") drawn.mark(KILLS);
    if (action === "note-oom") limited = { group: reader.a, need: over?.group === reader.a ? over.pages : 0 };
    if (Object.hasOwn(EVENT_STEPS, action)) drawn.happened(EVENT_STEPS[action], reader.a);
    if (action === "note-max") drawn.tighten(state.groups[reader.a], over?.pages ?? 0);
    if (action === "kill")
      drawn.events.at(-1).choice = follower.isOurs ? follower.choice :
      limited && state.groups[limited.group] && choiceOf(state, limited.group, limited.need);
  };
  const seen = {
    zone(its, lines) {
      [state, reader] = [its, lines];
      follower.zone(state, reader);
      drawn = new Run(state, log);
    },
    comment() {
      const fault = follower.comment();
      if (fault || !drawn) return fault;
      Object.assign(drawn, { sizes: follower.sizes, lacksSizes: follower.lacksSizes });
      const text = follower.isOurs ? "" : reader.text.slice(1).trim(), isAnswer = follower.told > 0;
      if (text) remarks.push(text);
      if (follower.isOurs && isDigit(log, reader.start + 2) && SECONDS.test(reader.text))
        drawn.seconds.push(drawn.lineNumbers.length, follower.seconds);
      if (!follower.isOurs || !follower.line && !follower.isEnd) return;
      if (!isAnswer) {
        closes();
        drawn.open(follower.line ? follower.line.number : follower.number + 1, reader.start);
        const { verb, words: [path, file = ""] = [] } = follower.line ?? {};
        drawn.wanting = state.numbers.get(path) ?? 0; // `rmdir` reclaims from its group, and names no cause
        drawn.cause = [verb, path, verb === "alloc" ? path : verb === "write" ? `write ${file}` : verb ?? "the end"];
        isOpen = true;
      } else if (follower.told === 1) {
        const refusal = /^# = refused (\d+ \w+)/.exec(reader.text);
        drawn.behind.items[drawn.behind.length - 1] = reader.start;
        if (refusal) {
          drawn.mark(REFUSED);
          drawn.happened("refused", state.numbers.get(follower.line?.words[0]) ?? -1, refusal[1]);
          drawn.events.at(-1).isOfMemory = ["alloc", "write"].includes(follower.line?.verb);
        }
      } else drawn.explained(reader.text, reader.start, state.numbers);
    },
    before() {
      if (!follower.isOurs) {
        if (!isOpen) drawn.open(reader.line, reader.start);
        isOpen = true;
        const position = drawn.lineNumbers.length - 1;
        if (remarks.length)
          drawn.remarks.set(position, [drawn.remarks.get(position), ...remarks].filter(Boolean).join(" "));
        remarks = [];
      }
      return follower.before();
    },
    after() {
      const action = ACTIONS[reader.action][0];
      if (reader.answer !== ILLEGAL) made(action);
      if (reader.answer === OVER) over = { group: reader.n, pages: reader.b };
      else if (action === "grant" || action === "limit") over = null;
      if (reader.answer === MISSED) drawn.missed.push(drawn.lineNumbers.length - 1);
      if (action === "lock") drawn.locks[reader.seat].push(drawn.lineNumbers.length - 1);
      if (action === "lock" || !follower.isOurs && reader.seat === 0) drawn.mark(LOCKED);
      if (!follower.isOurs) {
        if ([ILLEGAL, OVER, NO_BLOCK, MISSED].includes(reader.answer)) {
          drawn.mark(REFUSED);
          drawn.happened("refused", ["grant", "place"].includes(action) ? reader.a : -1, ANSWERS[reader.answer][0]);
        }
        if (!state.holder) closes();
      } else follower.after();
    },
    end: () => follower.end()
  };
  const running = run(log, seen);
  /** @type {any} */
  let step;
  let turns = 0, effort = 0;
  while (!(step = running.next()).done) {
    if (++turns % 64 && !(state?.effort > effort)) continue;
    effort = (state?.effort ?? 0) + 5000;
    yield (reader?.at ?? 0) / log.length;
  }
  if (!drawn) return { run: null, verdict: step.value };
  if (!step.value.status) closes();
  else if (isOpen) {
    // The line that disagrees has the state before it; of a log without commands, that before the step.
    if (!follower.isOurs) drawn.record(state);
    drawn.position++;
    drawn.starts.push(drawn.logCell.length);
    drawn.fault = { position: drawn.lines, text: step.value.text, isStep: /: step \d+ /.test(step.value.text) };
    drawn.until = reader.at;
  } else drawn.fault = { position: drawn.lines, text: step.value.text, isStep: false };
  drawn.steps = step.value.steps;
  drawn.orderEvents();
  return { run: drawn, verdict: step.value };
}
