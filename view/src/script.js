// The lists of lines and of events, of which only rows in sight are in the page; and the script

import { eventRow } from "./events.js";
import { causesOf, eventText } from "./explain.js";
import { MOST_PRINTED } from "./files.js";
import { jump, showCpu, tell } from "./go.js";
import { isOther } from "./groups.js";
import { indexIn } from "./numbers.js";
import {
  ANSWER_SHARE, EVENT_COLUMNS, GROUP_SHARE, MOST_UNFOLDED, ROW_HEIGHT, TEXT_HEIGHT, byId, make, page
} from "./page.js";
import { sheets } from "./paint.js";
import { KILLS, LOCKED, REFUSED } from "./run.js";

/** Rows of the script: each line, and above it its remark, whose row has the negative of its position. */
export function placeRows() {
  const { run, remarks } = page;
  page.rows = new Int32Array(run.lines + 1 + remarks.size);
  page.rowOf = new Int32Array(run.lines + 1);
  for (let position = 0, row = 0; position <= run.lines; position++) {
    if (remarks.has(position)) page.rows[row++] = -position;
    page.rowOf[position] = row;
    page.rows[row++] = position;
  }
  page.lineRows.begin(page.rows.length);
}

/**
 * A list of which only the rows in sight are in the page. A row is made once; after that only the choice of rows
 * changes,
 * and which ones are unfolded: a row from `open` on has `more` pixels of such rows before it.
 */
export class Rows {
  count = 0; top = 0; height = 0; width = 0; inside = 0; open = 0;
  isNarrow = false;
  more = [0];
  /** @type {Map<number, HTMLElement>} */ made = new Map();
  constructor(box, isChosen, rowAt, linesAt, currentAt) {
    this.box = box;
    this.inner = box.firstElementChild;
    this.isChosen = isChosen;
    this.rowAt = rowAt;
    this.linesAt = linesAt;
    this.currentAt = currentAt;
    box.addEventListener("scroll", () => {
      this.top = box.scrollTop;
      if (page.run) this.draw();
    });
  }
  /** The sizes are asked for when they change, and where it is scrolled to is kept, so that drawing needn't ask. */
  measure() {
    this.height = this.box.clientHeight;
    this.inside = this.box.clientWidth;
    this.isNarrow = this.inside < NARROW;
    this.box.classList.toggle("narrow", this.isNarrow);
    this.box.parentElement.classList.toggle("narrow-part", this.isNarrow);
    this.width = this.isNarrow ? this.inside : Math.max(480, this.inside);
    this.top = this.box.scrollTop;
  }
  /** Has so many other rows now. */
  begin(count) {
    this.count = count;
    this.made.clear();
    this.inner.replaceChildren();
    this.unfold(0, -1);
  }
  /**
   * Gives each of these rows as many lines as it needs, and the others one. The lines are counted, so the browser
   * needn't lay out for it.
   */
  unfold(first, last) {
    const more = [0];
    for (let at = first; at <= Math.min(last, first + MOST_UNFOLDED); at++)
      more.push(more.at(-1) + (this.linesAt(at) - 1) * TEXT_HEIGHT);
    Object.assign(this, { open: first, more });
    this.inner.style.height = `${this.topOf(this.count)}px`;
  }
  /** The height of a row that isn't unfolded: in a narrow window, a cause is below the other cells. */
  get least() {
    return this.isNarrow && this.rowAt === eventRow ? ROW_HEIGHT + TEXT_HEIGHT + 2 : ROW_HEIGHT;
  }
  topOf(at) {
    return at * this.least + this.more[Math.max(0, Math.min(at - this.open, this.more.length - 1))];
  }
  /** The row that has this place. */
  rowNear(y) {
    let at = Math.floor(y / this.least);
    while (at > 0 && this.topOf(at) > y) at--;
    return at;
  }
  /**
   * Scrolls, if these rows and some beside them aren't in sight. Before anything else is drawn: so the browser lays out
   * once.
   */
  show(first, last = first) {
    const top = this.topOf(Math.max(0, first - 1)), end = this.topOf(Math.min(this.count, last + 3));
    if (top >= this.top && end <= this.top + this.height) return;
    const near = top < this.top ? top : Math.min(top, end - this.height);
    this.top = Math.max(0, near, Math.min(this.topOf(first),
      this.topOf(last + 1) - this.height)); // all of these rows, if there is room
    this.box.scrollTop = this.top;
  }
  /** Makes the rows around this one, as many as are printed. */
  spread(row) {
    const first = Math.max(0, Math.min(row - MOST_PRINTED / 2, this.count - MOST_PRINTED)),
      end = Math.min(this.count, first + MOST_PRINTED);
    this.top = this.topOf(first);
    this.height = this.topOf(end) - this.top;
    this.box.style.setProperty("--paper", `${this.height}px`);
    this.inner.style.marginTop = `${-this.top}px`;
    this.draw();
  }
  fold() {
    this.inner.style.marginTop = "";
    this.measure();
  }
  draw() {
    const first = Math.max(0, this.rowNear(this.top) - 4),
      last = Math.min(this.count, this.rowNear(this.top + this.height) + 7);
    const current = this.currentAt();
    for (const [at, row] of this.made) {
      if (at >= first && at < last) continue;
      row.remove();
      this.made.delete(at);
    }
    for (let at = last - 1; at >= first; at--) {
      const isNew = !this.made.has(at), row = isNew ? this.rowAt(at) : this.made.get(at),
        chosen = String(this.isChosen(at));
      if (isNew) {
        this.inner.insertBefore(row, this.made.get(at + 1) ?? null);
        this.made.set(at, row);
      }
      const top = this.topOf(at), height = this.topOf(at + 1) - top;
      if (isOther(row, top, height)) Object.assign(row.style, { top: `${top}px`, height: `${height}px` });
      if (row.id && row.getAttribute("aria-selected") !== chosen) row.setAttribute("aria-selected", chosen);
      if (row.classList.contains("current") !== (at === current)) row.classList.toggle("current");
    }
    const active = this.made.get(current)?.id ?? "";
    if ((this.box.getAttribute("aria-activedescendant") ?? "") === active) return;
    if (active) this.box.setAttribute("aria-activedescendant", active);
    else this.box.removeAttribute("aria-activedescendant");
  }
}
/** How many lines a text needs in so many pixels, broken at its spaces, or within a word that is wider. */
function linesOf(text, wide, widthOf) {
  let lines = 1, used = 0;
  for (const word of text.split(/(?<= )/)) {
    const width = widthOf(word.trimEnd());
    if (used && used + width > wide) [lines, used] = [lines + 1, 0];
    if (width > wide) lines += Math.ceil(width * 1.1 / wide) - 1;
    used += widthOf(word);
  }
  return lines;
}
/** The width of a text in a panel's letters. */
export function textWidth(text) {
  const pen = sheets.letters ??= make("canvas").getContext("2d");
  pen.font = "12px system-ui, 'DejaVu Sans', sans-serif";
  return pen.measureText(text).width;
}
/** The lines of a row of the script, whose command has the room that number, CPU, mark and answer leave. */
export function scriptLines(at) {
  const { line, command, answer } = page.rows[at] > 0 ? page.run.said(page.rows[at]) :
    { line: "", command: "", answer: "" };
  const letter = sheets.letter ??= monoWidth(),
    room = page.lineRows.inside - 16 - 4 * 7 - letter * (Math.max(5, `${line}`.length) + 2 + 1.4);
  return linesOf(page.run.fault?.position === page.rows[at] ? `✕ disagrees: ${command}` : command,
    room - Math.min(Math.max(4, answer.length) * letter, page.lineRows.inside * ANSWER_SHARE) - 3,
    text => text.length * letter);
}
function monoWidth() {
  const pen = make("canvas").getContext("2d");
  pen.font = "12px ui-monospace, 'DejaVu Sans Mono', monospace";
  return pen.measureText("0".repeat(100)).width / 100;
}
export const causeAt = at => page.shown[at].cause ??= causesOf(page.run, page.shown[at]);
export const groupWidth = () => page.eventRows.isNarrow ? page.eventRows.inside - 180 :
  (page.eventRows.width - 16) * GROUP_SHARE;
const NARROW = 470; // pixels, below which a cause has lines of its own
export const eventLines = at => linesOf(causeAt(at)[0],
  page.eventRows.isNarrow ? page.eventRows.inside - 18 : page.eventRows.width - EVENT_COLUMNS - groupWidth() - 1,
  textWidth);
export function remarkRow(position) {
  const remark = page.remarks.get(position);
  return make("div", { className: "row remark", role: "presentation" }, make("span", { className: "number" }),
    make("span", { className: "command", textContent: remark, title: remark }));
}
export function lineRow(position) {
  const { run } = page, line = position ? run.said(position) : { line: "", cpu: "", command: "boot", answer: "" },
    marks = run.marks.at(position);
  const [sign, kind, title] = marks & KILLS ? ["◆", "kills", "a group is killed"] :
    marks & REFUSED ? ["✕", "refused", "refused"] :
    marks & LOCKED || !position ? ["", "", ""] : ["·", "", "took no lock"];
  const isWrong = run.fault?.position === position && position,
    span = (className, textContent, title = "") => make("span", { className, textContent, title });
  const row = make("div", { className: "row", role: "option", id: `row-${position}`, onclick: () => jump(position) },
    span("number", line.line),
    span("cpu", line.cpu), span(`mark ${kind}`, sign, title),
    span("command", `${isWrong ? "✕ disagrees: " : ""}${line.command}`, line.command),
    span(`answer ${marks & REFUSED ? "refused" : ""}`, line.answer));
  row.setAttribute("aria-posinset", position + 1);
  row.setAttribute("aria-setsize", run.lines + 1);
  return row;
}

export function showScript() {
  const { run } = page, at = page.rowOf[run.position];
  page.lineRows.unfold(at, at);
  page.lineRows.show(at - (page.remarks.has(run.position) ? 1 : 0), at);
}
/** Scrolls to the line that is shown, and to the events of it, or those before it. */
export function showRows() {
  const { run, shownAt } = page;
  showScript();
  showEvents(run, shownAt);
  showCpu(actingCpu(run));
}
/** Scrolls to the events of the line, or to the last ones before it. */
export function showEvents({ position }, shownAt) {
  const until = indexIn(shownAt, position), from = indexIn(shownAt, position - 1) + 1, last = Math.max(0, until);
  page.eventRows.unfold(from, until);
  if (shownAt.length) page.eventRows.show(Math.min(last, from), last);
}
export const actingCpu = run => run.position ? Number(run.said(run.position).cpu) : 0;

export function find(forward = true) {
  const run = page.run, words = byId("find").value.trim().toLowerCase();
  if (!run || !words) return;
  const numbered = /^\d+$/.test(words) ? positionOf(Number(words)) : 0;
  if (run.lineNumbers.at(numbered) === Number(words)) return jump(numbered);
  const events = new Map(run.events.map(event => [event.position, event]));
  for (let step = 1; step <= run.lines; step++) {
    const position = 1 + (run.position - 1 + (forward ? step : -step) + 2 * run.lines) % run.lines,
      line = run.said(position);
    if (`${line.command} ${line.answer}`.toLowerCase().includes(words)) return jump(position);
    if (events.has(position) && eventText(run, events.get(position)).includes(words)) return jump(position);
  }
  tell(`no line has ${words}`);
}
/** The last position whose number isn't above this one. */
export const positionOf = (number, run = page.run) =>
  Math.max(0, indexIn(run.lineNumbers.items.subarray(0, run.lines + 1), number));
