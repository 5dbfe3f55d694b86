// Opening a log

import { firstUnit } from "./amounts.js";
import { openingOf } from "./answer.js";
import { sizesWords } from "./commands.js";
import { openSecond } from "./compare.js";
import { makeCpus } from "./cpus.js";
import { draw } from "./draw.js";
import { offerKinds } from "./events.js";
import { KINDS } from "./explain.js";
import { go, stop, tell } from "./go.js";
import { load } from "./load.js";
import { countOf } from "./numbers.js";
import { Unpacked } from "./parcels.js";
import { placeRows } from "./script.js";
import { measure } from "./start.js";
import { MOST_FRESH } from "./state.js";
import { drawTimeline, resizeTime } from "./time.js";
import { MOST_VERDICTS, drawVerdict, verdictText } from "./verdict.js";
import { plural, zoneWords } from "./words.js";
import { logOf } from "./worker.js";

/** @type {(id: string) => any} An element of the page, of whatever kind. */
export const byId = id => document.getElementById(id);
/** Changes what is in a box: the button there that has the focus keeps it, by its place, or the box gets it. */
export function keepFocus(box, change) {
  const at = box.contains(document.activeElement) ?
    [...box.querySelectorAll("button")].indexOf(document.activeElement) : -1;
  change();
  if (at >= 0) (box.querySelectorAll("button")[at] ?? box).focus({ preventScroll: true });
}
/**
 * An element. Words are text only, never markup.
 * @returns {any}
 */
export function make(tag, properties = {}, ...children) {
  const element = document.createElement(tag);
  for (const [name, value] of Object.entries(properties))
    if (name in element && name !== "list") element[name] = value;
    else element.setAttribute(name, value);
  element.append(...children);
  return element;
}
/** @type {any} */
export const pristine = document.documentElement.cloneNode(true);
/** @type {Record<string, any>} What is open and how it is shown. */
export const page = { run: null, log: "", name: "", script: null, remarks: new Map(), rows: [], unit: 0, naming: 0,
  frame: -1, life: null, cpu: 0, other: null, otherLog: "", differs: [], warnings: [],
  verdict: { state: "none", text: "no log is open" }, playing: 0, layout: null,
  history: [], timeX: null, hover: null, zone: [0, 0], view: [0, 0], unshown: 0, pictured: null, answerKey: "",
  answerSize: [0, 0], isStepsOpen: false, groupsTop: 0, groupsHeight: 0, shownLives: "", shownGroups: "", shown: [],
  shownAt: [], zoneSize: [0, 0], timeSize: [0, 0] };
export const ROW_HEIGHT = 20, TEXT_HEIGHT = 16, MOST_UNFOLDED = 40, ANSWER_SHARE = 0.22;
export const BESIDE_TIME = 500; // the pixels of the time line's title and buttons
// Of the table of events: the pixels of a row that aren't the cause's or the group's, as the styles above have them.
export const EVENT_COLUMNS = 16 + 4 * 7 + 36 + 24 + 86, GROUP_SHARE = 0.15;

let opening = 0;
/**
 * Does work piece by piece, so that the page can do other things, also before what follows; null if other work began
 * meanwhile.
 */
export async function inPieces(work, name) {
  const mine = ++opening;
  badge("busy", `${name} …`);
  for (let step, since = performance.now();;) {
    if (!(step = work.next()).done && performance.now() - since < 40) continue;
    if (!step.done) badge("busy", `${name} … ${Math.floor(100 * step.value)} %`);
    await new Promise(resolve => setTimeout(resolve));
    if (mine !== opening) return null;
    if (step.done) return step.value;
    since = performance.now();
  }
}
const LEAST_FOR_WORKER = 200000; // bytes: a shorter log takes no longer than a Worker's start
/** Runs a log: a text, a file, or a block of the page; null if another one was opened meanwhile. */
export async function loaded(sent) {
  stop();
  const size = (sent.text ?? sent.block)?.length ?? sent.file.size,
    worker = size < LEAST_FOR_WORKER ? null : newWorker();
  const found = worker ? await loadedBy(worker, sent) : await loadedHere(sent);
  if (found) badge(page.verdict.state, page.verdict.text);
  return found;
}
async function loadedHere(sent) {
  const { name, text } = await logOf(sent), found = await inPieces(load(text), "checking");
  return found && { ...found, name, log: text };
}
/** A Worker with the rules; null if the browser lets a page from a file have none. */
function newWorker() {
  try {
    const url = URL.createObjectURL(new Blob([byId("rules").textContent], { type: "text/javascript" })),
      worker = new Worker(url);
    URL.revokeObjectURL(url);
    return worker;
  } catch {
    return null;
  }
}
/** What a Worker finds. If it ends with a fault, such as a lack of memory, the page does the work. */
function loadedBy(worker, sent) {
  const mine = ++opening, unpacked = new Unpacked();
  badge("busy", "checking …");
  return new Promise(resolve => {
    const end = found => {
      worker.terminate();
      resolve(found);
    };
    worker.onerror = () => end(mine === opening ? loadedHere(sent) : null);
    worker.onmessage = ({ data }) => {
      if (mine !== opening) return end(null);
      if (data.share !== undefined) return badge("busy", `checking … ${Math.floor(100 * data.share)} %`);
      unpacked.take(data);
      if (unpacked.isWhole) end(unpacked);
    };
    worker.postMessage(sent);
  });
}
/** Opens a log: its name and text. */
export const openLog = (name, text) => openSent({ name, text });
export async function openSent(sent) {
  const found = await loaded(sent);
  if (!found) return;
  const { name, log, run, verdict } = found;
  page.tried = log;
  if (run) await begin(name, log, run);
  else end();
  page.runVerdict = verdict;
  judge(name, verdict, run);
  if (run)
    byId("live").textContent = [byId("warned").textContent, verdictText(run, MOST_VERDICTS)].filter(Boolean).join(" ");
}
const laterOn = () => new Promise(later => setTimeout(later));
/** Shows a run. It is prepared, drawn, and its time line drawn in three turns, so that none takes long. */
export async function begin(name, log, run) {
  run.high = run.sizes?.high ?? MOST_FRESH;
  Object.assign(page, { run, log, name, frame: -1, life: null, cpu: 0, other: null, otherLog: "", differs: [],
    history: [], remarks: run.remarks, script: null, shownGroups: "", livesKey: "", zoneKey: "",
    ways: waysOf(run), eventsKey: null, shown: [], shownAt: [], view: [0, run.lines], hover: null, pictured: null,
    answerKey: "", zone: [0, run.frames] });
  offerKinds(run);
  byId("frame-number").value = "";
  byId("name").textContent = name;
  document.title = `${name} – memcg log`;
  byId("sizes").textContent = zoneWords(run).join(" · ") +
    (run.sizes ? ` · ${sizesWords(run.sizes)}` : " · steps without commands");
  byId("groups-table").classList.toggle("large", run.frames > 9999);
  for (const kind of ["low", "high"])
    byId("groups-table").classList.toggle(`no-${kind}`,
    !run.lives.some(life => countOf(life[`${kind}s`]) > 1) && !run.events.some(event => event.kind === kind));
  byId("save").disabled = byId("picture").disabled = false;
  page.isPreparing = true; // nothing is drawn for a change of sizes
  byId("welcome").hidden = true;
  document.body.classList.remove("empty");
  byId("compare").setAttribute("aria-disabled", "false");
  placeRows();
  makeCpus();

  resizeTime();
  page.unit = firstUnit(run);
  await laterOn();
  drawVerdict();
  measure();
  go(openingOf(run));
  const sizes = page.sizes;
  await laterOn();
  page.isPreparing = false;
  if (page.sizes === sizes) drawTimeline();
  else draw();
}
/** No log is open: of one that was, nothing is left beside the word that another text is no log. */
function end() {
  Object.assign(page, { run: null, log: "", name: "", script: null, other: null, otherLog: "", frame: -1, life: null,
    cpu: 0 });
  byId("name").textContent = byId("sizes").textContent = "";
  document.title = "memcg log";
  byId("verdict-part").hidden = byId("runs-part").hidden = true;
  byId("save").disabled = byId("picture").disabled = true;
  byId("compare").setAttribute("aria-disabled", "true");
  byId("welcome").hidden = false;
  document.body.classList.add("empty");
}
/** Of each kind of event, the positions that have one. */
function waysOf(run) {
  const ways = Object.fromEntries(Object.keys(KINDS).map(kind => [kind, []]));
  for (const { kind, position } of run.events)
    for (const way of ["high", "lowered"].includes(kind) ? [kind, "max"] : [kind])
    if (ways[way].at(-1) !== position) ways[way].push(position);
  return ways;
}
/** What the rules say of the log, in the words of `memcg check`. */
export function judge(name, { status, text, steps }, run) {
  Object.assign(document.documentElement.dataset, { lines: run?.lines ?? 0, status });
  byId("warned").textContent = run?.lacksSizes ?
    "⚠ commands and answers aren't checked: line 2 isn't `# memcg batch B high H stock S`" : "";
  const coding = status === 2 && codingOf(page.tried ?? ""), why = coding ? ` (${coding})` : "";
  if (status) return badge("bad", run ? `✕ ${text}${why}` : `✕ ${name} is no log: ${text}${why}`);
  badge("good", `✓ ${plural(steps, "legal step")}${run.sizes ? "; all answers agree" : ""}`);
}

export function badge(state, text) {
  if (state !== "busy") page.verdict = { state, text };
  byId("badge").dataset.state = state;
  byId("badge").textContent = text;
  document.documentElement.dataset.state = state;
}

/** The bytes of a file, each as a character; null if it can't be read. */
const textOf = file => file.arrayBuffer().then(bytes => new TextDecoder("latin1").decode(bytes), () => null);
/** How a text is coded that isn't plain lines; nothing if it is. */
const codingOf = text => /^(\xff\xfe|\xfe\xff)/.test(text) || /^z\0|^\0z/.test(text) ?
  "it is in UTF-16: save it as plain ASCII" :
  text.startsWith("\xef\xbb\xbf") ? "it begins with a byte order mark: save it without" :
  /^[^\n]*\r\n/.test(text) ? "its lines end with CR LF: save it with LF alone" : "";
const isLog = text => /^(?:(?:#.*)?\n)*zone /.test(text.slice(0, 100000));
/** Opens files: the first log among them, beside it a second one, and a script's comments. */
export async function openFiles(files) {
  const logs = [], others = [];
  for (const file of files) {
    const head = await textOf(file.slice ? file.slice(0, 100000) : file);
    if (head === null) tell(`${file.name} can't be read: it may be a folder`);
    else if (isLog(head)) logs.push(file);
    else others.push([file.name, await textOf(file)]);
  }
  const [first, ...more] = logs;
  if (first) await openSent({ name: first.name, file: first });
  for (const file of more) if (page.run) await openSecond({ name: file.name, file });
  for (const [name, text] of others) {
    if (!page.run) badge("bad", `✕ ${name} is no log${codingOf(text) && `: ${codingOf(text)}`}`);
    else if (!addRemarks(text))
      byId("live").textContent = byId("said").textContent =
      `${name} is neither a log nor this log's script${codingOf(text) && `: ${codingOf(text)}`}`;
  }
}
/**
 * The comments of this log's script, by the line that they are above. Those that repeat the answer before them are left
 * out.
 */
export function addRemarks(script) {
  const { run } = page, lines = script.split("\n"), remarks = new Map();
  let at = 0;
  for (let position = 1; position <= run.lines; position++) {
    const line = run.said(position), texts = [],
      answers = position > 1 ? run.line(position - 1).answer.split("\n") : [];
    if (line.isEnd) break;
    for (; at < line.line - 1; at++) {
      const words = /^#(.*)/.exec(lines[at] ?? "")?.[1].trim();
      if (words && answers[0] === words) answers.shift();
      else if (words) texts.push(words);
    }
    if (!run.sizes || lines[at++]?.replace(/[^ -~]/g, "?") !== `${line.cpu} ${line.command}`) return false;
    if (texts.length) remarks.set(position, texts.join(" "));
  }
  Object.assign(page, { remarks, script });
  placeRows();
  draw();
  return true;
}
