// Files: the page with its log inside, tables, a picture

import { placeText } from "./address.js";
import { drawAnswer } from "./answer.js";
import { draw, setTheme } from "./draw.js";
import { causeWords } from "./explain.js";
import { litLives } from "./go.js";
import { write } from "./map.js";
import { indexIn, valueAt } from "./numbers.js";
import { byId, make, page, pristine } from "./page.js";
import { css } from "./paint.js";
import { showRows, textWidth } from "./script.js";
import { drawTimeline } from "./time.js";
import { isThereAt } from "./timeline.js";
import { placeName, verdictOf, wordsOfVerdict } from "./verdict.js";
import { plural } from "./words.js";
import { drawZone } from "./zone.js";

/** This page with the log inside, as `view/embed` makes it. */
export function save() {
  const copy = pristine.cloneNode(true),
    hold = (id, value) => {
      copy.querySelector(`#${id}`).textContent = JSON.stringify(value).replace(/</g, "\\u003c");
    };
  hold("log", { name: page.name, text: page.log });
  if (page.script) hold("remarks", page.script);
  hold("place", `#${placeText()}`);
  if (page.otherLog) hold("second-log", { name: page.otherName, text: page.otherLog });
  download(".html", "text/html", ["<!doctype html>\n", copy.outerHTML, "\n"]);
}
/** Gives these parts to the reader as a file, named as the log is. */
export function download(end, type, parts) {
  const link = make("a", { href: URL.createObjectURL(new Blob(parts, { type })),
    download: page.name.replace(/\.log$/, "") + end });
  link.click();
  setTimeout(() => URL.revokeObjectURL(link.href), 10000);
}
export const csvOf = rows =>
  [rows.map(row => row.map(cell => /[",\n]/.test(cell) ? `"${String(cell).replace(/"/g, '""')}"` : cell).join(",") +
  "\n").join("")];
/**
 * The lit groups, or all: a row for each line that changed a group's usage, peak or settings, in pages. No limit is
 * max.
 */
export function timeTable(run) {
  const rows = [];
  for (const life of litLives(run) ?? run.lives) {
    const lists = ["series", "limits", "peaks", "highs", "lows", "mins"].map(curve => life[curve]),
      places = new Set(lists.flatMap(curve => curve.filter((_, at) => at % 2 === 0)));
    for (const position of places) {
      const values = lists.map(curve => valueAt(curve, position)).map(pages => pages < 0 ? "max" : pages);
      if (isThereAt(life, position)) rows.push([position, run.lineNumbers.at(position), life.path, ...values]);
    }
  }
  return [["line", "group", "usage", "limit", "peak", "high", "low", "min"],
    ...rows.sort((a, b) => a[0] - b[0]).map(row => row.slice(1))];
}
/** The events that are shown. */
export const eventTable = run => [["line", "cpu", "group", "event", "refusal", "cause"],
  ...page.shown.map(event => [run.lineNumbers.at(event.position),
  run.said(event.position).cpu, event.life?.path ?? "", event.kind, event.name, causeWords(run, event)])];
const PICTURE_SCALE = 2, CAPTION_LINE = 17, LEGEND_HIGH = 40; // pixels
/**
 * The picture of the kill beside the zone, the legend, and the time line as one picture of twice their size, below a
 * caption.
 */
export function savePicture() {
  const { run, answerSize, zoneSize, timeSize } = page, texts = captionOf(run),
    heads = CAPTION_LINE * texts.length + 10;
  const sizes = byId("answer-part").hidden ? [zoneSize] : [answerSize, zoneSize],
    wide = Math.max(timeSize[0], sizes.reduce((sum, [its]) => sum + its, 16));
  const [time, ...tops] = drawnAt(PICTURE_SCALE,
    () => ["time", ...(sizes.length > 1 ? ["answer"] : []), "zone"].map(id => copied(byId(id))));
  const high = Math.max(...sizes.map(([, its]) => its)), sheet = make("canvas"), pen = sheet.getContext("2d");
  sheet.width = PICTURE_SCALE * wide;
  sheet.height = PICTURE_SCALE * (heads + high + LEGEND_HIGH + timeSize[1]);
  pen.scale(PICTURE_SCALE, PICTURE_SCALE);
  pen.fillStyle = css("panel");
  pen.fillRect(0, 0, sheet.width, sheet.height);
  texts.forEach((text, at) => write(pen, text, 8, CAPTION_LINE * (at + 1), css("text"), wide - 16));
  tops.forEach((canvas, at) => pen.drawImage(canvas, at ? wide - sizes[at][0] - 8 : 8, heads, ...sizes[at]));
  writeLegend(pen, wide, heads + high);
  pen.drawImage(time, 0, heads + high + LEGEND_HIGH, ...timeSize);
  sheet.toBlob(picture => download(".png", "image/png", [picture]));
}
/** The legend of the zone, in rows. */
function writeLegend(pen, wide, top) {
  let [x, y] = [8, top + 4];
  for (const { firstChild: canvas, textContent } of byId("legend").children) {
    const needs = 22 + textWidth(textContent) + 14;
    if (x + needs > wide) [x, y] = [8, y + 18];
    pen.drawImage(canvas, x, y, 16, 16);
    write(pen, textContent, x + 21, y + 12, css("text"), needs);
    x += needs;
  }
}
const MOST_CAPTIONS = 4; // lines of the verdict
/** The caption: the log with its sizes and what is said of it, the line that is shown, and each kill. */
function captionOf(run) {
  const line = run.line(run.position),
    shown = line ? `Line ${line.line}: ${line.cpu} ${line.command} → ${line.answer.split("\n")[0]}` :
    "Before the first line";
  const { head, lines } = run.verdict ??= verdictOf(run), rest = lines.length - MOST_CAPTIONS;
  const told = lines.slice(0, MOST_CAPTIONS).map(([position, what]) =>
    `${placeName(run, position)}: ${wordsOfVerdict(run, what)}`);
  return [[page.name, byId("sizes").textContent, byId("badge").textContent].join(" · "), `${shown}. ${head}`, ...told,
    ...(rest > 0 ? [`and ${plural(rest, "more kill")}`] : [])];
}
function copied(canvas) {
  const copy = make("canvas", { width: canvas.width, height: canvas.height });
  copy.getContext("2d").drawImage(canvas, 0, 0);
  return copy;
}
/** What is found while zone and time line are drawn with so many dots a pixel. */
function drawnAt(scale, find) {
  const drawBoth = ratio => {
    Object.assign(page, { ratio, zoneKey: "", marked: "", timeX: null, answerKey: "" });
    drawAnswer();
    drawZone();
    drawTimeline();
  };
  drawBoth(scale);
  const found = find();
  drawBoth(0);
  return found;
}

// Paper

export const MOST_PRINTED = 500; // rows of a list
/** For the print: the whole time line, in light colours, and the lists at their length. */
export function layOnPaper() {
  if (!page.run || page.paper) return;
  page.paper = { theme: document.documentElement.dataset.theme, view: page.view };
  page.view = [0, page.run.lines];
  setTheme("light");
  for (const [rows, row] of [[page.lineRows, page.rowOf[page.run.position]],
    [page.eventRows, indexIn(page.shownAt, page.run.position)]]) rows.spread(row);
}
export function takeFromPaper() {
  if (!page.paper) return;
  const { theme, view } = page.paper;
  page.paper = null;
  for (const rows of [page.lineRows, page.eventRows]) rows.fold();
  page.view = view;
  setTheme(theme);
  showRows();
  draw();
}
