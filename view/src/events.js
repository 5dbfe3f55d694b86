// The table of events

import { KINDS, eventText } from "./explain.js";
import { go, jump, litLives, tell } from "./go.js";
import { nameOf, tailOf } from "./line.js";
import { indexIn } from "./numbers.js";
import { byId, make, page } from "./page.js";
import { causeAt, groupWidth, showEvents, textWidth } from "./script.js";
import { grouped, plural } from "./words.js";

const MEMORY = "memory";
/**
 * Whether an event is of the memory: all but the refusals of commands that charge or reclaim nothing. Of steps, all
 * are.
 */
const isOfMemory = event => event.isOfMemory ?? true;
/**
 * The kinds that the log has, and each refusal by its name. The events of the memory are shown at first, if there are
 * others.
 */
export function offerKinds(run) {
  const count = new Map();
  for (const { kind, name } of run.events)
    for (const each of new Set([kind, `${kind} ${name}`.trim()])) count.set(each, (count.get(each) ?? 0) + 1);
  const those = run.events.filter(event => isOfMemory(event)).length, others = run.events.length - those;
  byId("kind").replaceChildren(
    ...(those && others ? [make("option", { value: MEMORY, textContent: `memory (${grouped(those)})` })] : []),
    make("option", { value: "", textContent: `all events${others ? ` (${grouped(run.events.length)})` : ""}` }),
    ...[...count].sort(([a], [b]) => a < b ? -1 : 1)
    .map(([value, times]) => make("option", { value, textContent: `${value} (${grouped(times)})` })));
  byId("sought").value = "";
}
/** The events of the lit groups that are of the chosen kind and have the words that are sought. */
function findEvents(run) {
  const kind = byId("kind").value, words = byId("sought").value.trim().toLowerCase(), lives = litLives(run);
  return run.events.filter(event => (!lives || lives.has(event.life)) &&
    (!kind || kind === MEMORY && isOfMemory(event) || event.kind === kind || `${event.kind} ${event.name}` === kind) &&
    (!words || eventText(run, event).includes(words)));
}
export function drawEvents() {
  const { run } = page, key = [byId("kind").value, byId("sought").value, page.life?.index].join("\n");
  if (key === page.eventsKey) return;
  const shown = findEvents(run);
  Object.assign(page, { shown, shownAt: shown.map(({ position }) => position), eventsKey: key, timeX: null });
  page.eventRows.begin(shown.length);
  showEvents(run, page.shownAt);
  byId("events").setAttribute("aria-rowcount", shown.length);
  const hidden = run.events.length - shown.length,
    isDefault = byId("kind").value === MEMORY && !page.life && !byId("sought").value.trim();
  byId("events-said").textContent = !hidden ? plural(shown.length, "event") :
    isDefault ? `${plural(shown.length, "event")}, ${grouped(hidden)} hidden` :
    `${grouped(shown.length)} shown of ${grouped(run.events.length)}${page.life ? " (lit)" : ""}`;
  byId("events-said").title = isDefault && hidden ?
    `${plural(hidden, "refusal")} of commands that charge and reclaim nothing: choose all events, and they are shown` :
    "";
}
/**
 * The row of the table that is the current one: that to which a key led, or the first one of the line; -1 if the line
 * has none.
 */
export function currentEvent() {
  const { run, shownAt } = page, first = indexIn(shownAt, run.position - 1) + 1;
  return shownAt[page.eventAt] === run.position ? page.eventAt : shownAt[first] === run.position ? first : -1;
}
/** Goes to the row above or below, and says it: rows of one line too. */
export function goEvent(by) {
  const { run, shown, shownAt } = page, current = currentEvent(), next = indexIn(shownAt, run.position) + 1,
    to = current >= 0 ? current + by : by > 0 ? next : next - 1;
  if (!shown[to]) return tell(`no ${by > 0 ? "later" : "earlier"} event in the table`);
  page.eventAt = to;
  if (shownAt[to] !== run.position) go(shownAt[to]);
  page.eventRows.show(to);
  page.eventRows.draw();
  const { kind, life } = shown[to];
  byId("live").textContent = `Line ${run.lineNumbers.at(shownAt[to])}: ${kind}${life ? ` ${nameOf(run, life)}` :
    ""}: ${causeAt(to).join("")}`;
}
export function eventRow(at) {
  const { run } = page, event = page.shown[at], { position, kind, life, name } = event, [sign, color] = KINDS[kind],
    [reason, by] = causeAt(at);
  const cell = (className, textContent) => make("span",
    { className, textContent, title: textContent, role: "gridcell" });
  const whose = cell("whose", life ? nameOf(run, life) : / (\/\S+)/.exec(run.said(position).command)?.[1] ?? "–");
  whose.textContent = tailOf(whose.title, text => textWidth(text) < groupWidth());
  const what = cell("what-kind", `${sign} ${kind}${name ? ` ${name.split(" ")[0]}` : ""}`),
    row = make("div", { className: "row", role: "row",
    id: `event-${at}`, onclick: () => jump(position) }, cell("number", `${run.lineNumbers.at(position)}`),
    cell("cpu", run.said(position).cpu),
    whose, what, make("span", { className: "command", title: reason + by, role: "gridcell" }, reason,
    make("span", { className: "by", textContent: by })));
  what.style.color = `var(--${color})`;
  row.setAttribute("aria-rowindex", at + 1);
  return row;
}
