// The panel of the time line

import { amount, boundText, unitName } from "./amounts.js";
import { KINDS } from "./explain.js";
import { litLives } from "./go.js";
import { nameOf } from "./line.js";
import { indexIn, valueAt } from "./numbers.js";
import { BESIDE_TIME, byId, page } from "./page.js";
import { colors, css, penOf, sheets } from "./paint.js";
import { textWidth } from "./script.js";
import { OVERVIEW, axisIn, drawTime, isThereAt, secondsText, timeFrame } from "./timeline.js";
import { plural } from "./words.js";

export function resizeTime() {
  page.timeX = null;
}
/** Shows this part of the run, of 4 lines or more. */
export function showTime(from, until) {
  const { run } = page, length = Math.min(run.lines, Math.max(4, until - from)),
    first = Math.max(0, Math.min(from, run.lines - length));
  page.view = [first, first + length];
  drawTimeline();
}
/** Zooms by a factor: what is at this share of the time line stays there. */
export function zoomTime(factor, share = 0.5) {
  const { run, view } = page, [from, until] = view.map(at => run.axisOf(at)),
    first = from + (until - from) * (1 - factor) * share;
  showTime(run.positionAt(first), run.positionAt(first + (until - from) * factor));
}
export function panTime(share) {
  const { run, view } = page, [from, until] = view.map(at => run.axisOf(at)),
    [first, last] = [0, run.lines].map(at => run.axisOf(at));
  const by = Math.max(first - from, Math.min(last - until, (until - from) * share));
  showTime(run.positionAt(from + by), run.positionAt(until + by));
}
/** Shows a part as long as the one that is shown, whose middle is at this share of the run. */
export function centerTime(share) {
  const { run, view } = page, [from, until, first, last] = [...view, 0, run.lines].map(at => run.axisOf(at));
  panTime((first + share * (last - first) - (from + until) / 2) / (until - from || 1));
}
/** At which share of the time line a position is. */
const shareOf = (run, view, position) => Math.max(0, Math.min(1, axisIn(run, view, 0, 1)(position)));
export const hereShare = () => shareOf(page.run, page.view, page.run.position);

export function drawTimeline() {
  const { run, view } = page, canvas = byId("time"), [width, height] = page.timeSize, mode = byId("mode").value,
    sheet = sheets.time ??= document.createElement("canvas");
  if (width < 250) return;
  const key = [width, height, colors.theme, page.life?.index, page.cpu, page.unit, mode, ...view].join(" ");
  if (page.timeX === null || key !== page.timeKey) {
    page.unshown = 0;
    page.timeX = drawTime(sheet, run, width, height, { view, lit: litLives(run), mode, events: page.shown });
    page.timeKey = key;
  }
  const pen = penOf(canvas, width, height), frame = timeFrame(width, height), end = height - OVERVIEW - 18;
  pen.drawImage(sheet, 0, 0, width, height);
  if (page.hover !== null) cursor(pen, page.timeX(page.hover), end, css("muted"));
  cursor(pen, page.timeX(run.position), end, css("accent"));
  pen.fillStyle = css("accent");
  pen.fillRect(frame.left + shareOf(run, [0, run.lines], run.position) * frame.wide - 1, frame.over, 2, OVERVIEW);
  sayTime(run);
  canvas.setAttribute("aria-valuemax", run.lines);
  canvas.setAttribute("aria-valuenow", run.position);
  canvas.setAttribute("aria-valuetext", byId("time-said").title);
}
function cursor(pen, x, end, color) {
  pen.strokeStyle = pen.fillStyle = color;
  pen.lineWidth = 1.5;
  pen.beginPath();
  pen.moveTo(x, 0);
  pen.lineTo(x, end);
  pen.stroke();
  pen.beginPath();
  pen.moveTo(x - 6, 0);
  pen.lineTo(x + 6, 0);
  pen.lineTo(x, 8);
  pen.fill();
}
/** The values at the pointer, or at the line that is shown: those of the lit group, or of the greatest ones. */
function sayTime(run) {
  const position = page.hover ?? run.position, lit = litLives(run),
    all = page.hover === null ? run.groups().map(group => run.life(group)) :
    run.lives.filter(life => isThereAt(life, position));
  const there = all.filter(life => lit ? lit.has(life) : life.number || all.length === 1).map(
    life => [life, valueAt(life.series, position)]).sort((a, b) => b[1] - a[1]);
  const said = ([life, usage]) => {
    const [limit, high, low, min, peak] = ["limits", "highs", "lows", "mins", "peaks"].map(
      curve => valueAt(life[curve], position));
    const bounds = [limit < 0 ? "" : `limit ${amount(limit)}`, high < 0 ? "" : `high ${amount(high)}`,
      low ? `low ${boundText(low)}` : "", min ? `min ${boundText(min)}` : ""];
    return `${nameOf(run, life)} ${amount(usage)} (${[...bounds, `peak ${amount(peak)}`].filter(Boolean).join(", ")})`;
  };
  const happened = page.shown.slice(indexIn(page.shownAt, position - 1) + 1, indexIn(page.shownAt, position) + 1)
    .map(({ kind, name, life }) => `${KINDS[kind][0]} ${kind} ${name || life?.path || ""}`.trim());
  const wordsOf = (groups, events) =>
    `${position ? `line ${run.lineNumbers.at(position)}` :
    "boot"}${run.seconds.length ? `, ${secondsText(run, position)}` : ""}, in ${unitName()}: ` +
    [...there.slice(0, groups).map(said),
    ...(there.length > groups ? [`and ${there.length - groups} more`] : []), ...happened.slice(0, events),
    ...(happened.length > events ? [events ? `and ${happened.length - events} more events` :
    plural(happened.length, "event")] : [])].join(" · ") +
    (page.unshown ? `. No room for ${plural(page.unshown, "group")}: light one` : "");
  byId("time-said").title = wordsOf(5, 6);
  byId("time-said").textContent = fittingWords(wordsOf, happened.length, page.timeSize[0]);
}
/**
 * The words of as many of 5 groups and 6 events as the heading of a time line has room for, beside its buttons. A small
 * window has lines for all.
 */
function fittingWords(wordsOf, happened, wide) {
  const least = happened === 1 ? 1 : 0;
  let [groups, events] = [5, 6], words = wordsOf(groups, events);
  while (wide > 700 && groups + events > 1 && textWidth(words) * 13 / 12 > wide - BESIDE_TIME) {
    if (groups > 3 || events === least && groups > 1) groups--;
    else events--;
    words = wordsOf(groups, events);
  }
  return words;
}
