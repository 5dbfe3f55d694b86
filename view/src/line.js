// The panel that says what a line does

import { changeWords, dirtyBefore } from "./changes.js";
import { heldOf, inlineOf, more } from "./cpus.js";
import { isSpared, killWords, noteWords } from "./explain.js";
import { jump, light, pick } from "./go.js";
import { byId, keepFocus, make, page } from "./page.js";
import { TOTALS } from "./run.js";
import { MOST_LINE } from "./state.js";
import { answeredWords, askedWords, grouped, plural, spaced } from "./words.js";

export function drawLine() {
  const run = page.run, line = run.line(run.position, page.opened === run.position ? Infinity : undefined),
    box = byId("line");
  keepFocus(box,
    () => box.replaceChildren(
    ...(line ? [...saidOf(run, line), ...totalsOf(run, line), ...notesOf(run, line), ...changesOf(run, line),
    ...stepsOf(run, line)] : bootWords(run))));
  if (line?.rest) box.append(more(line.rest, () => {
    page.opened = run.position;
    drawLine();
  }, "more bytes of the log"));
  if (page.lineShown !== run.position && page.isLineScrolled) {
    box.scrollTop = 0;
    page.isLineScrolled = false;
  }
  page.lineShown = run.position;
}
/** As much of a path's end as fits, from a name on. */
export function tailOf(path, fits) {
  let tail = path;
  for (let at = path.indexOf("/", 1); at > 0 && !fits(tail); at = path.indexOf("/", at + 1))
    tail = `…${path.slice(at)}`;
  return tail;
}
export const ordinal = number =>
  `${number}${{ 1: "st", 2: "nd", 3: "rd" }[number % 100 > 10 && number % 100 < 14 ? 0 : number % 10] ?? "th"}`;
/** A group's path. If it was made more than once, which of these groups. */
export const nameOf = (run, life) => life.path + (run.livesOf.get(life.path) > 1 ? ` (${ordinal(life.nth)})` : "");
export const paragraph = (className, textContent) => make("p", { className, textContent });

function bootWords(run) {
  return [paragraph("what", "Before the first line"),
    paragraph("",
      `All ${plural(run.frames, "frame")} of the zone ${run.frames === 1 ? "is" :
      "are"} free. There is no group except /, and every CPU's list and stock are empty.`
      ),
    paragraph("",
      "Press → or Play to go through the script. The zone in the middle shows each frame and the group that is " +
      "charged for it; what a line changed has a heavy outline. This panel says in words what the line does and why."
      ),
    paragraph("",
      `${page.ways.kill.length ? `Press k for the next line that kills a group (${page.ways.kill.length}). ` :
      ""}${page.ways.refused.length ? `Press r for the next one that is refused (${page.ways.refused.length}). ` :
      ""}Press ? for the terms and all keys.`
      )
  ];
}
export const askedBy = line => line.isEnd ? "All pins are put, and all CPUs give back what they have." : line.isStep ?
  `${line.cpu === "0" ? "The zone" : `CPU ${line.cpu}`}: ${line.command}.` :
  line.isCut ? `CPU ${line.cpu}: the log has the first ${grouped(MOST_LINE)} bytes of this line.` :
  `CPU ${line.cpu} ${askedWords(line.command)}.`;
export const answeredBy = line => line.isEnd ? endWords(line.answer) : line.isStep ? "" : answeredWords(line);
/** The report of the end. Its totals are listed with their lines. */
function endWords(answer) {
  const [, held] = /^held (\d+)/m.exec(answer) ?? [],
    [, frames, free] = /^audit frames (\d+) free (\d+)/m.exec(answer) ?? [];
  return [held && `${plural(Number(held), "pin")} had to be put.`,
    frames && `${free} of ${plural(Number(frames), "frame")} ${free === "1" ? "is" : "are"} free.`].filter(Boolean)
    .join(" ");
}
/** The positions that made each of the audit's totals. */
function totalsMade(run) {
  const made = TOTALS.map(() => []), first = run.TOTALS, last = first + TOTALS.length;
  for (let position = 1; position <= run.lines; position++)
    for (let at = run.starts.at(position); at < run.starts.at(position + 1); at++) {
      const cell = run.logCell.items[at];
      if (cell >= first && cell < last) made[cell - first].push(position);
    }
  return made;
}
/** At the end: the audit's totals and the freezes that missed, each with the lines that made it. */
function totalsOf(run, line) {
  if (run.fault || !line.isEnd && run.position !== run.lines) return [];
  const made = run.made ??= [...totalsMade(run), [...new Set(run.missed)]],
    counts = [...TOTALS.map((_, at) => run.cells[run.TOTALS + at]), run.missed.length];
  const titles = ["Units ended by a last put", "Units ended by a freeze, to reclaim them", "Fresh frames dropped",
    "Units freed in all", "Freezes that missed, since a CPU had a pin"];
  return [make("h4", { textContent: "The audit's totals, and the lines that made them" }),
    ...titles.map((title, at) => inlineOf(`${title}: ${grouped(counts[at])}, on lines`, made[at],
    position => [`${run.lineNumbers.at(position)}`, () => jump(position)]))];
}
/** The remark of the script, the command, and what it was answered. */
function saidOf(run, line) {
  const remark = page.remarks.get(run.position), said = answeredBy(line), children = [];
  const killed = run.eventsAt(run.position).filter(({ kind }) => kind === "kill");
  const chip = (textContent, isStrong) => make("span", { className: isStrong ? "chip strong" : "chip", textContent });
  if (remark) children.push(paragraph("remark-said", remark));
  children.push(make("p", { className: "command-said" },
    make("span", { className: "code", textContent: `${line.cpu} ${line.command}` }), " ", chip(`line ${line.line}`),
    chip(line.lock ? "took the lock" : "no lock", line.lock)));
  children.push(...killed.slice(0, 3).map(event =>
    paragraph("note-killed",
    `◆ ${event.life ? nameOf(run, event.life) : "A group"} is killed${spaced(killWords(run, event))}.`)));
  if (killed.length > 3) children.push(paragraph("note-killed", `And ${killed.length - 3} more, below.`));
  children.push(paragraph("what", askedBy(line)));
  children.push(...heldOf(run));
  children.push(make("p", { className: "answer-said" },
    make("span", { className: "code" }, ...openable(line.answer, 1500)),
    said ? ` — ${said}` : ""));
  if (run.fault?.position === run.position)
    children.unshift(paragraph("note-oom", `The log disagrees: ${run.fault.text}. Nothing after it is drawn.`));
  return children;
}
/** A text, of which so many bytes are shown at first. */
function openable(text, most) {
  if (text.length <= most) return [text];
  const rest = make("span");
  return [text.slice(0, most), rest, more(text.length - most, () => rest.textContent = text.slice(most), "more bytes")];
}
/** A list under a title, of which so many entries are shown at first. An entry that is made only then is a function. */
export function listOf(title, tag, items, most) {
  if (!items.length) return [];
  const list = make(tag, {}), add = (from, count) => {
    const rest = items.length - from - count;
    list.append(...items.slice(from, from + count).map(item => typeof item === "function" ? item() : item));
    if (rest > 0) {
      const item = make("li", {}, more(rest, () => {
        item.remove();
        add(from + count, 2000);
      }));
      list.append(item);
    }
  };
  add(0, most);
  return [make("h4", { textContent: title }), list];
}
/** Notes in a row that say the same: of stocks that were empty, and of frames of one group that were reclaimed. */
function foldedNotes(notes) {
  const folds = [];
  for (const [at, note] of notes.entries()) {
    const key = /^# stock \d+ bytes 0 /.test(note) ? "#" : /^# reclaimed (\/\S*) \d+(?:-\d+)?$/.exec(note)?.[1] ?? "";
    if (key && folds.at(-1)?.key === key) folds.at(-1).notes.push(note);
    else folds.push({ key, notes: [note], at });
  }
  return folds;
}
/** What was tried for room. */
function notesOf(run, line) {
  const dirty = line.notes.some(note => / returned 0 /.test(note)) ? dirtyBefore(run, line.notes) : 0;
  const items = foldedNotes(line.notes).map(({ key, notes, at }) => {
    if (key === "#")
      return make("li", {}, inlineOf(notes.length === 1 ? "A stock is drained, and was empty. CPU" :
      `${notes.length} stocks are drained, and all were empty. CPUs`,
      notes.map(note => note.split(" ")[2]), cpu => [cpu, () => light(null, Number(cpu))]));
    if (notes.length === 1)
      return make("li", { className: `note-${/^# (\w+)/.exec(notes[0])?.[1]}`,
      textContent: noteWords(notes[0], dirty, isSpared(line.notes, at)) });
    const spans = notes.map(note => note.split(" ")[3].split("-").map(Number)),
      frames = spans.reduce((sum, [first, last = first]) => sum + last - first + 1, 0);
    return make("li", {}, inlineOf(`${plural(frames, "frame")} of ${key} are freed, clean and without a pin`, spans,
      span => [span.join("–"), () => pick(span[0])]));
  });
  return listOf("What was tried for room", "ol", items, 200);
}
const changesOf = (run, line) => listOf("What changed", "ul",
  changeWords(run, line).map(textContent => make("li", { textContent })), 12);
/**
 * The steps. A unit that was frozen was the one that the manual's chapter on reclaim has next. Of a fault in a step
 * that
 * step is the last one, for nothing after it is read.
 */
function stepsOf(run, line) {
  const isFault = at => run.fault?.position === run.position && run.fault.isStep && at === line.steps.length - 1;
  const items = line.steps.map((step, at) => make("li", { className: isFault(at) ? "note-oom fault" : "" },
    make("span", { className: "code", textContent: step }),
    isFault(at) ? ` ✕ ${run.fault.text.replace(/^.*?: /, "")}` : / freeze /.test(step) ? " — this unit was next" : ""));
  const isOpen = isFault(items.length - 1), [title, list] = listOf("Its steps", "ol", items, isOpen ? Infinity : 40);
  return title ? [make("details", { open: isOpen || page.isStepsOpen,
    ontoggle: event => page.isStepsOpen = event.target.open },
    make("summary", {}, title, ` (${grouped(items.length)})`), list)] : [];
}
