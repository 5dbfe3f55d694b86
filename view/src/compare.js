// Two runs

import { amount, memoryText, unitName } from "./amounts.js";
import { sizesWords } from "./commands.js";
import { inlineOf } from "./cpus.js";
import { commandCount, draw } from "./draw.js";
import { KINDS, isSpared, killWords, noteWords, reasonWords } from "./explain.js";
import { go, jump, tell } from "./go.js";
import { boundsText, isOther } from "./groups.js";
import { listOf, nameOf, paragraph } from "./line.js";
import { indexAt, indexIn, mapped, startOf, valueAt, valueOf } from "./numbers.js";
import { addRemarks, badge, begin, byId, inPieces, judge, keepFocus, loaded, make, page } from "./page.js";
import { CURVES } from "./run.js";
import { positionOf } from "./script.js";
import { measure } from "./start.js";
import { curvesOf, isThereAt } from "./timeline.js";
import { grouped, plural, zoneWords } from "./words.js";

/** Opens a second run beside the first. Its groups look like those of the same path. */
export async function openSecond(sent) {
  const found = await loaded(sent);
  if (found) await showSecond(found.name, found.log, found);
}
async function showSecond(name, log, found) {
  if (!found.run) return tell(`${name} is no log: ${found.verdict.text}`);
  const { run } = page, other = found.run;
  for (const life of other.lives) {
    if (!run.styles.has(life.path)) run.styles.set(life.path, run.styles.size);
    life.style = run.styles.get(life.path);
  }
  other.styles = run.styles;
  const compared = await inPieces(comparison(run, other), "comparing");
  if (!compared) return;
  badge(page.verdict.state, page.verdict.text);
  Object.assign(page, { other, otherName: name, otherLog: log, otherVerdict: found.verdict, ...compared, timeX: null,
    zoneKey: "" });
  showRuns();
  drawWarnings();
  measure();
  draw();
}
/** Makes the second run the first one, at the same line. */
export async function swapRuns() {
  const { run, name, log, runVerdict, other, otherName, otherLog, otherVerdict, script } = page,
    number = run.lineNumbers.at(run.position);
  await begin(otherName, otherLog, other);
  judge(otherName, otherVerdict, other);
  if (script) addRemarks(script);
  go(positionOf(number));
  await showSecond(name, log, { run, verdict: runVerdict });
}
function* comparison(run, other) {
  const places = placesIn(run, other), otherLives = yield* livesHere(other, places),
    differs = yield* differences(run, other, otherLives);
  return { otherLives, otherMarks: marksOf(other, places), differs, warnings: yield* warningsOf(run, other),
    effect: effectOf(run, other, differs, otherLives) };
}
const GRAVER = ["drain", "reclaim", "low", "high", "max", "lowered", "oom", "kill"];
/** Of each line with events in the second run the gravest kind, at these places. */
function marksOf(other, places) {
  const gravest = new Map();
  for (const { position, kind } of other.events) {
    const place = places[position];
    if (GRAVER.indexOf(kind) > GRAVER.indexOf(gravest.get(place))) gravest.set(place, kind);
  }
  return [...gravest].map(([position, kind]) => ({ position, kind }));
}
/** The first line that differs though its command is the same: its position, and what it does here and there. */
function effectOf(run, other, differs, otherLives) {
  const textOf = (where, at) => where.textAt(where.from.at(at)), placeOf = position => positionIn(other, run, position);
  const position = run.sizes && other.sizes &&
    differs.find(each => placeOf(each) > 0 && textOf(run, each) === textOf(other, placeOf(each)));
  if (!position) return null;
  const at = placeOf(position), [ours, theirs] = [[run, position], [other, at]].map(([where, its]) =>
    where.eventsAt(its).map(({ kind, life, name }) => `${KINDS[kind][0]} ${kind} ${life?.path ?? name}`).join(", ") ||
    "no event");
  if (ours !== theirs) return { position, words: `${ours} here, and ${theirs} there` };
  const answers = [run.said(position).answer, other.said(at).answer];
  if (answers[0] !== answers[1]) return { position, words: `${answers[0]} here, and ${answers[1]} there` };
  for (const life of run.lives.filter(each => isThereAt(each, position)))
    for (const its of otherLives.get(life.path)?.filter(each => isThereAt(each, position)) ?? []) {
    const [usage, second] = [life, its].map(each => valueAt(each.series, position));
    if (usage !== second)
      return { position,
      words: `the usage of ${life.path} is ${memoryText(usage)} here, and ${memoryText(second)} there` };
  }
  return { position, words: "it makes other steps" };
}
/**
 * What makes two runs no runs of one script on one zone. Other sizes of batches, lists and stocks are what is compared.
 */
function* warningsOf(run, other) {
  const warnings = [];
  const [zone, second] = [run, other].map(each => zoneWords(each).join(", "));
  if (zone !== second) warnings.push(`The zones differ: ${zone} ≠ ${second}`);
  if (!run.sizes !== !other.sizes)
    return [...warnings, "Only one of the logs has commands: so lines of steps stand beside lines of a script."];
  const said = text => text === undefined ? "missing" : `\`${text}\``,
    { count, first: [line, ours, theirs] } = yield* otherTexts(run, other);
  if (count)
    warnings.push(`The ${run.sizes ? "scripts" : "steps"} differ on ${plural(count,
    "line")}${count > 1 ? "; the first" : ""}: line ${line} is ${said(ours)} here and ${said(theirs)} there`);
  return warnings;
}
/** How many lines have another text in either script, and the first: its number and both texts. */
function* otherTexts(run, other) {
  const ends = [run, other].map(commandCount),
    textOf = (where, at) => where.textAt(where.from.at(at)).replace(/^# line \d+: /, "");
  let count = 0, first = [];
  for (let one = 1, two = 1; one <= ends[0] || two <= ends[1];) {
    const [ours, theirs] = [one <= ends[0] ? run.lineNumbers.at(one) : Infinity,
      two <= ends[1] ? other.lineNumbers.at(two) : Infinity], line = Math.min(ours, theirs);
    const texts = [ours === line ? textOf(run, one++) : undefined, theirs === line ? textOf(other, two++) : undefined];
    if (texts[0] !== texts[1] && !count++) first = [line, ...texts];
    if ((one + two) % 256 < 2) yield one / run.lines;
  }
  return { count, first };
}
function drawWarnings() {
  const { run, warnings, effect } = page,
    cause = warnings.some(text => /^The (scripts|zones)/.test(text)) ? "the change" : "the other sizes";
  byId("warnings").replaceChildren(...warnings.map(text => paragraph("warning", `⚠ ${text}`)),
    ...(effect ? [make("p", { className: "inline", id: "effect" },
    `First effect of ${cause}: `, make("button",
    { textContent: `line ${run.lineNumbers.at(effect.position)}`, onclick: () => jump(effect.position) }),
    ` ${effect.words}.`)] : []));
  byId("runs-box").scrollTop = 0;
}
export function closeSecond() {
  Object.assign(page, { other: null, otherLog: "", differs: [], timeX: null, zoneKey: "" });
  showRuns();
  measure();
  draw();
}
/** The same line of the other run: its position, or -1 if that run has no such line. */
function positionIn(other, run, position = run.position) {
  const number = run.lineNumbers.at(position), found = positionOf(number, other);
  return other.lineNumbers.at(found) === number ? found : -1;
}
/** Who is killed at the current position: how many bytes that freed, and for which limit. */
const killsOf = run => run.eventsAt(run.position).filter(({ kind }) => kind === "kill")
  .map(event => `${event.life?.path ?? "?"}${event.note ? `: ${killWords(run, event, true)}` : ""}`);
/** The events of each position: what is the same in two runs in which the same happened. */
const happenedAt = run => run.happenedAt ??= run.events.reduce((words, { kind, position, life, name }) =>
  words.set(position, `${words.get(position) ?? ""}${kind} ${life?.path ?? name}, `), new Map());
/**
 * The positions of lines that the other run answered otherwise or with other events, and of those after which a group's
 * usage, limit, memory.high, memory.low or memory.min is another one, and wasn't before. Kills are events.
 */
function* differences(run, other, otherLives) {
  const found = new Set(), [ours, theirs] = [run, other].map(happenedAt);
  for (let position = 1; position <= run.lines; position++) {
    const at = positionIn(other, run, position);
    if (at < 0 || run.answerAt(position) !== other.answerAt(at) || ours.get(position) !== theirs.get(at))
      found.add(position);
    if (position % 256 === 0) yield position / run.lines;
  }
  const next = new Map(); // of each path, the first life of the second run that may have the time of a life that comes
  for (const [at, life] of run.lives.entries()) {
    const those = otherLives.get(life.path) ?? [];
    let first = next.get(life.path) ?? 0;
    while (first < those.length && endOf(those[first]) <= life.from) first++;
    next.set(life.path, first);
    for (let index = first; index < those.length && those[index].from < endOf(life); index++)
      addUnequal(found, life, those[index]);
    if (at % 256 === 0) yield 1;
  }
  return [...found].sort((a, b) => a - b);
}
const COMPARED = Object.keys(CURVES).filter(curve => curve !== "peaks");
const endOf = life => life.until ?? Infinity;
/** Adds the positions from which on two lives of a path have another usage or setting, while both are there. */
function addUnequal(found, life, its) {
  const from = Math.max(life.from, its.from), until = Math.min(endOf(life), endOf(its));
  for (const what of COMPARED) {
    const [ours, theirs] = [life[what], its[what]], nextOf = (curve, at) => startOf(curve, at + 1) ?? Infinity;
    let one = indexAt(ours, from), two = indexAt(theirs, from), wasOther = false;
    for (let at = from; at < until; at = Math.min(nextOf(ours, one), nextOf(theirs, two))) {
      while (nextOf(ours, one) <= at) one++;
      while (nextOf(theirs, two) <= at) two++;
      const isOther = valueOf(ours, one) !== valueOf(theirs, two);
      if (isOther && !wasOther) found.add(at);
      wasOther = isOther;
    }
  }
}
/** Of each position of the second run that of the same line of the first, or of the one before. */
function placesIn(run, other) {
  const places = new Int32Array(other.lines + 1);
  for (let at = 0, here = 0; at <= other.lines; at++) {
    while (here < run.lines && run.lineNumbers.at(here + 1) <= other.lineNumbers.at(at)) here++;
    places[at] = here;
  }
  return places;
}
/** The second run's lives by their paths, at these places. */
function* livesHere(other, places) {
  const lives = new Map();
  const placed = curve => mapped(curve, position => places[position], pages => pages);
  for (const [at, life] of other.lives.entries()) {
    const its = { ...life, from: places[life.from], until: life.until === undefined ? undefined : places[life.until],
      ...Object.fromEntries(COMPARED.map(curve => [curve, placed(life[curve])])) };
    lives.has(life.path) ? lives.get(life.path).push(its) : lives.set(life.path, [its]);
    if (at % 256 === 0) yield at / other.lives.length;
  }
  for (const its of lives.values()) {
    curvesOf(its); // kept, so that the first drawing needn't join them all at once
    yield 1;
  }
  return lives;
}
/**
 * What two runs have at the same line: the answers, the kills, and usage, limit and peak of each group; what differs
 * comes first.
 */
function comparedRows(run, other) {
  const said = where => where.position ? where.line(where.position).answer : "boot",
    kills = where => killsOf(where).join(" · ") || "none";
  const livesOf = where => new Map(where.groups().map(group => [where.path(group), group])),
    [ours, theirs] = [run, other].map(livesOf);
  const valuesOf = (where, group) => group === undefined ? ["–", "–", "–"] :
    [amount(where.row(group, "current")), boundsText(where, group), amount(where.row(group, "peak"))];
  const isOther = ({ ours, theirs }) => `${ours}` !== `${theirs}`;
  const groups = [...new Set([...ours.keys(), ...theirs.keys()])].map(
    name => ({ name, ours: valuesOf(run, ours.get(name)), theirs: valuesOf(other, theirs.get(name)) }));
  return [{ name: "answer", ours: [said(run)], theirs: [said(other)] },
    { name: "killed", ours: [kills(run)], theirs: [kills(other)] }, ...groups.filter(isOther),
    ...groups.filter(each => !isOther(each))];
}
function showRuns() {
  byId("runs-part").hidden = !page.other;
  byId("time-part").classList.toggle("two", page.other !== null);
}
export function drawRuns() {
  const { run, other } = page;
  showRuns();
  if (!other) return;
  const { status, text } = page.otherVerdict, number = run.lineNumbers.at(run.position);
  other.goto(positionOf(number, other));
  const its = other.lineNumbers.at(other.position), sizes = other.sizes,
    cell = (textContent, name = "td", more = {}) =>
    make(name, { textContent: textContent.slice(0, 300), title: textContent, ...more });
  byId("runs-said").textContent = byId("runs-said").title =
    `${plural(page.differs.length, "line")} differ${page.differs.length === 1 ? "s" :
    ""} · ${page.otherName}: ${status ? `✕ ${text}` : "✓ legal"}${sizes ? `, ${sizesWords(sizes)}` : ""}`;
  const head = names => make("tr", {},
    ...names.map(([name, span, className]) => make("th",
    { textContent: name, colSpan: span, className, scope: "col" })));
  const rows = comparedRows(run, other).map(({ name, ours, theirs }, at) => {
    const differs = `${ours}` !== `${theirs}`, isWide = at < 2,
      values = isWide ? [[ours[0], 3], [theirs[0], 3]] : ours.flatMap((each, index) => [[each, 1], [theirs[index], 1]]);
    return make("tr", { className: differs ? "differs" : "" },
      cell(`${differs ? "≠ " : ""}${name}`, "td", { className: "left" }),
      ...values.map(([value, colSpan]) => cell(value, "td", { colSpan })));
  });
  byId("runs").replaceChildren(head([[`line ${number}`, 1, "left"], ["this run", 3, "left"],
    [`second run${its === number ? "" : `: no such line, so after its line ${its}`}`, 3, "left"]]), ...rows.slice(0, 2),
    head([[`in ${unitName()}`, 1, "left"], ["usage", 1, ""], ["2nd", 1, ""], ["limit", 1, ""], ["2nd", 1, ""],
    ["peak", 1, ""], ["2nd", 1, ""]]), ...rows.slice(2));
  byId("runs-why").replaceChildren(happenedOf(run, "This run"),
    its === number ? happenedOf(other, "Second run") : paragraph("", "The second run has no such line."));
  drawWhole(run, other);
}
/** What happened in a run at its line, and what was tried for room. */
function happenedOf(where, title) {
  const line = where.line(where.position), notes = line?.notes ?? [];
  return make("div", {}, make("h4", { textContent: title }),
    ...where.eventsAt(where.position).map(event => paragraph(`note-${event.kind}`,
    `${KINDS[event.kind][0]} ${event.kind} ${event.life ? nameOf(where, event.life) : ""}: ${reasonWords(where, event,
    line)}`)),
    ...listOf("", "ol", notes.map((note, at) => make("li", { textContent: noteWords(note, 0, isSpared(notes, at)) })),
    40).slice(1), ...(notes.length ? [] : ["Nothing was tried for room."]));
}
/** How often each kind of event is in either run, and all lines that differ. */
function drawWhole(run, other) {
  if (!isOther(byId("runs-whole"), page.otherName, page.differs.length, run.position)) return;
  const count = (where, kind) => where.events.reduce((sum, event) => sum + (event.kind === kind), 0);
  const counts = Object.keys(KINDS).map(kind => [kind, count(run, kind), count(other, kind)]).filter(
    ([, one, two]) => one || two);
  const words = counts.map(([kind, one, two]) =>
    `${one === two ? "" : "≠ "}${KINDS[kind][0]} ${kind} ${grouped(one)} and ${grouped(two)}`);
  keepFocus(byId("runs-whole"),
    () => byId("runs-whole").replaceChildren(paragraph("inline",
    `Events in the whole run, this and the second: ${words.join(" · ") || "none"}.`),
    inlineOf("Lines that differ (keys d and D)", page.differs,
    position => [`${run.lineNumbers.at(position)}`, () => jump(position)],
    Math.max(0, indexIn(page.differs, run.position) - 9))));
}
