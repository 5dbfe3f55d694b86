// The time line: marks in rows, the usages, and below them the whole run. What doesn't depend on the line is kept.

import { amount } from "./amounts.js";
import { KINDS, LANES } from "./explain.js";
import { tailOf } from "./line.js";
import { write } from "./map.js";
import { countOf, indexAt, indexIn, mapped, mostIn, startOf, valueAt, valueOf } from "./numbers.js";
import { page } from "./page.js";
import { css, fillStyled, penOf, styleAt } from "./paint.js";
import { CURVES } from "./run.js";
import { parentPath } from "./state.js";
import { grouped } from "./words.js";

export const LANE = 11, OVERVIEW = 13;
/** The rows below the kinds: where the lit CPU took the lock, where the second run differs, and its events. */
const lanes = () => [...(page.cpu ? [[`CPU ${page.cpu}'s lock`, page.run.locks[page.cpu]]] : []),
  ...(page.other ? [["differs ≠", page.differs], ["second's", null, page.otherMarks]] : [])];
/** Where the parts of the time line are, in a canvas of this size. */
export function timeFrame(width, height) {
  const left = width < 600 ? 72 : 84, right = width < 600 ? 8 : 92,
    top = LANE * (Object.keys(LANES).length + lanes().length) + 6;
  return { left, right, top, wide: width - left - right, high: height - top - OVERVIEW - 20, over: height - OVERVIEW };
}
/** These items with the least first; each is valued once. */
export const sortedBy = (items, valueOf) =>
  items.map(item => [valueOf(item), item]).sort(([a], [b]) => a - b).map(([, item]) => item);
export const isThereAt = (life, position) => life.from <= position && position < (life.until ?? Infinity);
const topLives = run => run.top ??= run.lives.filter(life => life.number || run.lives.length === 1);
export const isInView = (life, view) => life.from <= view[1] && (life.until ?? Infinity) >= view[0];

const curves = new WeakMap();
/** The lives of each path, one after the other, as one life: its curves end as a group is removed, and begin again. */
export function curvesOf(lives) {
  if (!curves.has(lives)) curves.set(lives, joinedLives(lives));
  return curves.get(lives);
}
function joinedLives(lives) {
  const paths = new Map();
  for (const life of lives) paths.has(life.path) ? paths.get(life.path).push(life) : paths.set(life.path, [life]);
  const joined = (same, what) =>
    same.flatMap(life => life.until === undefined ? life[what] : [...life[what], life.until, -1]);
  return [...paths.values()].map(same => same.length === 1 ? same[0] :
    { ...same[0], isJoined: true, until: same.at(-1).until,
    ...Object.fromEntries(Object.keys(CURVES).map(what => [what, joined(same, what)])) });
}
/** Where a position is in a part of the run that is drawn from `left` on. */
export function axisIn(run, view, left, wide) {
  const [from, until] = view.map(at => run.axisOf(at)), scale = wide / (until - from || 1);
  return run.isTimed ? position => left + (run.axisOf(position) - from) * scale :
    position => left + (position - from) * scale;
}
/** The position at a share of a part of the run. */
export function placeAt(run, view, share) {
  const [from, until] = view.map(at => run.axisOf(at));
  return share <= 0 ? view[0] : share >= 1 ? view[1] : run.positionAt(from + share * (until - from));
}
/** Draws what of the time line doesn't depend on the line, and returns where a position is. */
export function drawTime(canvas, run, width, height, { view, lit, mode, events }) {
  const pen = penOf(canvas, width, height), frame = timeFrame(width, height), { left, top, wide, high } = frame;
  const x = axisIn(run, view, left, wide);
  const lives = lit ?? topLives(run), curves = curvesOf(lives).filter(life => isInView(life, view));
  drawKinds(pen, run, events, frame, view, x);
  lanes().forEach(([name, positions, marks], at) => {
    const y = 10 + LANE * (Object.keys(LANES).length + at);
    if (marks) drawSigns(pen, marks, name, "text", y, frame, view, x);
    else drawTicks(pen, positions, name, y, frame, view, x);
  });
  pen.save();
  pen.beginPath();
  pen.rect(0, top - 6, left + wide + 2, high + 12);
  pen.clip();
  const ends = mode === "side" ? drawSideBySide(pen, curves, frame, view, x) : mode === "stack" ?
    drawStack(pen, run, [...lives], frame, view, x) : drawOver(pen, run, curves, lives, frame, view, x, lit);
  pen.restore();
  drawEnds(pen, run, ends, frame, width, view);
  drawPlaces(pen, run, frame, view, x);
  drawOverview(pen, run, frame, view, lit ? page.life : run.lives[0]);
  return x;
}
/** A row of marks for each kind of event. */
function drawKinds(pen, run, events, frame, view, x) {
  const { top, high } = frame;
  Object.entries(LANES).forEach(([lane, name], row) => {
    const y = 10 + row * LANE, its = events.filter(event => KINDS[event.kind][3] === lane);
    drawSigns(pen, its, name, KINDS[lane][1], y, frame, view, x);
    if (lane === "kill") for (const { position } of its)
      if (position >= view[0] && position <= view[1]) pen.fillRect(x(position), y + 2, 0.6, top + high - y);
  });
}
/** A row of the signs of events, under a name. */
function drawSigns(pen, events, name, color, y, { left }, view, x) {
  let drawn = -9, before = "";
  rightText(pen, name, left - 6, y, css(color), left - 6);
  pen.textAlign = "center";
  for (const { position, kind } of events) {
    const here = x(position), [sign, its] = KINDS[kind];
    if (position < view[0] || position > view[1] || here - drawn < 2 && sign === before) continue;
    [drawn, before] = [here, sign];
    pen.fillStyle = css(its);
    pen.fillText(sign, here, y);
  }
  pen.textAlign = "left";
}
/** A row with a tick at each of these positions. */
function drawTicks(pen, positions, name, y, { left }, view, x) {
  let drawn = -9;
  rightText(pen, name, left - 6, y, css("text"), left - 6);
  for (let at = indexIn(positions, view[0] - 1) + 1; at < positions.length && positions[at] <= view[1]; at++) {
    const here = Math.round(x(positions[at]));
    if (here > drawn) pen.fillRect(drawn = here, y - 8, 1, 8);
  }
}
/** The lines of the scale, with a number at each. */
function drawScale(pen, { left, wide }, most, y) {
  pen.lineWidth = 1;
  pen.strokeStyle = css("line");
  for (const share of [0, 0.5, 1]) {
    pen.beginPath();
    pen.moveTo(left, y(most * share));
    pen.lineTo(left + wide, y(most * share));
    pen.stroke();
    if (share === 0.5 && most < 4) continue;
    rightText(pen, amount(Math.round(most * share)), left - 6, y(most * share) + 4, css("muted"), left - 6);
  }
}
/** The greatest number of the scale: settings are on it if they aren't far above the usages. */
function scaleOf(lives, view) {
  const mostOf = (name, bound) => lives.map(life => mostIn(life[name], view)).reduce(
    (most, value) => value <= bound && value > most ? value : most, 1);
  const used = Math.max(mostOf("series", Infinity), mostOf("peaks", Infinity));
  return Math.max(used, ...Object.keys(BOUND_DASHES).map(curve => mostOf(curve, 3 * used)));
}
const MOST_CURVES = 7; // groups that are drawn each for itself
/** Of these curves the killed groups', and those with the greatest usage. */
function greatestOf(run, curves, view) {
  const killed = killedLives(run),
    isKilled = life => killed.has(life) || life.isJoined && [...killed].some(({ path }) => path === life.path);
  return curves.length <= MOST_CURVES ? curves :
    sortedBy(curves, life => (isKilled(life) ? -(2 ** 32) : 0) - mostIn(life.series, view)).slice(0, MOST_CURVES);
}
/** The usage that is in no group of these, as a curve: that of the root without them. */
function othersOf(run, shown) {
  const paths = new Set(shown.map(({ path }) => path)), isBelow = ({ path }) => {
    for (let above = parentPath(path); above !== "/"; above = parentPath(above)) if (paths.has(above)) return true;
    return false;
  };
  const tops = shown.filter(life => life.path !== "/" && !isBelow(life)),
    places = new Set([run.lives[0], ...tops].flatMap(({ series }) => series.filter((_, at) => at % 2 === 0)));
  const usageOf = (life, position) => isThereAt(life, position) ? Math.max(0, valueAt(life.series, position)) : 0;
  return [...places].sort((a, b) => a - b).flatMap(position =>
    [position, tops.reduce((rest, life) => rest - usageOf(life, position), valueAt(run.lives[0].series, position))]);
}
const others = new WeakMap(); // of each set of lives: what is in none of those that are drawn
/** The usages one over another, with the settings of each; of many groups the greatest, and what all others have. */
function drawOver(pen, run, curves, lives, frame, view, x, lit) {
  const shown = greatestOf(run, curves, view), most = scaleOf(shown, view), killed = killedLives(run),
    { top, high } = frame, y = pages => top + high - pages / most * high, ends = [];
  const rest = !lit && shown.length < curves.length ? { ...OTHERS, series: othersFor(run, shown) } : null,
    paths = new Set(shown.map(({ path }) => path));
  drawScale(pen, frame, most, y);
  for (const life of lit ? greatestOf(run, curvesOf(topLives(run).filter(each => !lit.has(each))), view) : [])
    drawSteps(pen, life, life.series, view, x, y, { alpha: 0.25 });
  if (rest) drawSteps(pen, rest, rest.series, view, x, y, { width: 2, dash: [1, 2] });
  for (const life of shown) {
    drawBounds(pen, life, view, x, y, lit || curves.length <= 4);
    for (const its of page.other ? curvesOf(page.otherLives.get(life.path) ?? []) : [])
      drawSteps(pen, its, its.series, view, x, y, { dash: [9, 3, 2, 3] });
    drawSteps(pen, life, life.series, view, x, y, { width: 2, dash: styleAt(life.style).dash });
  }
  for (const life of lives)
    if (paths.has(life.path) && (isThereAt(life, view[1]) || killed.has(life) && isInView(life, view)))
    ends.push([life, y(valueAt(life.series, Math.min(view[1], (life.until ?? Infinity) - 1))) + 4]);
  if (rest) ends.push([{ ...rest, path: `${grouped(curves.length - shown.length)} others` },
    y(valueAt(rest.series, view[1])) + 4]);
  return ends;
}
const OTHERS = { path: "others", isRest: true, style: 0, from: 0, until: undefined };
/** The same for the same groups, which are drawn again and again as the view changes. */
function othersFor(run, shown) {
  const key = shown.map(({ path, from }) => `${from} ${path}`).join("\n"), kept = others.get(run);
  if (kept?.key !== key) others.set(run, { key, series: othersOf(run, shown) });
  return others.get(run).series;
}
// How the settings are drawn: the limit dashed, memory.high with one dot a dash, memory.low with two, memory.min with
// three.
const BOUND_DASHES = { limits: [5, 3], highs: [6, 2, 1, 2], lows: [6, 2, 1, 2, 1, 2], mins: [6, 2, 1, 2, 1, 2, 1, 2] };
/**
 * A life's settings, and its peak, dotted: each as it was from line to line. memory.low and memory.min of 0 are none.
 */
function drawBounds(pen, life, view, x, y, hasPeak = true) {
  const drawn = (name, curve) => drawSteps(pen, life, curve, view, x, y, { width: 1.5, dash: BOUND_DASHES[name] });
  for (const curve of ["limits", "highs"]) drawn(curve, life[curve]);
  for (const curve of ["lows", "mins"]) if (countOf(life[curve]) > 1)
    drawn(curve, mapped(life[curve], position => position, pages => pages || -1));
  if (hasPeak) drawSteps(pen, life, life.peaks, view, x, y, { dash: [1, 3] });
}
const MOST_POINTS = 4000;
/**
 * Of many values at each pixel, the extremes, as a line in each column of pixels, all drawn at once: dashes, or a call
 * for each, would take long.
 */
function drawBand(pen, curve, view, x, y, width) {
  let before = -1, column = -1, low = Infinity, high = -1;
  const add = (from, until) => {
    for (let at = from + 0.5; high >= 0 && at < until; at++) {
      pen.moveTo(at, y(high) - width / 2);
      pen.lineTo(at, y(low) + width / 2);
    }
  };
  pen.lineWidth = 1;
  pen.beginPath();
  for (let index = Math.max(0, indexAt(curve, view[0])); index < countOf(curve) &&
    startOf(curve, index) <= view[1]; index++) {
    const pages = valueOf(curve, index), here = Math.floor(x(startOf(curve, index)));
    if (here !== column) {
      add(column, column + 1);
      [low, high] = before < 0 ? [Infinity, -1] : [before, before];
      if (column >= 0) add(column + 1, here);
      column = here;
    }
    if (pages >= 0) [low, high] = [Math.min(low, pages), Math.max(high, pages)];
    before = pages;
  }
  add(column, column + 1);
  pen.stroke();
  pen.globalAlpha = 1;
}
/**
 * A stepped line of this curve while the life is there. A value below 0 is none. Within half a pixel only extremes are
 * drawn.
 */
export function drawSteps(pen, life, curve, view, x, y, { width = 1, dash = [], alpha = 1 }) {
  const end = x(Math.min(life.until ?? view[1], view[1])), color = styleAt(life.style).color;
  let before = -1, at = -9, low = 0, high = -1;
  Object.assign(pen, { strokeStyle: color, fillStyle: color, lineWidth: width, globalAlpha: alpha });
  if (indexAt(curve, view[1]) - indexAt(curve, view[0]) > MOST_POINTS) return drawBand(pen, curve, view, x, y, width);
  pen.setLineDash(dash);
  pen.beginPath();
  for (let index = Math.max(0, indexAt(curve, view[0])); index < countOf(curve) &&
    startOf(curve, index) <= view[1]; index++) {
    const pages = valueOf(curve, index), here = x(startOf(curve, index)), isNear = here - at < 0.5;
    if (isNear && low <= pages && pages <= high) {
      before = pages;
      continue;
    }
    if (before >= 0) pen.lineTo(here, y(before));
    if (pages >= 0) before < 0 ? pen.moveTo(here, y(pages)) : pen.lineTo(here, y(pages));
    [low, high] = isNear ? [Math.min(low, pages), Math.max(high, pages)] : [pages, pages];
    [before, at] = [pages, here];
  }
  if (before >= 0) pen.lineTo(end, y(before));
  pen.stroke();
  pen.setLineDash([]);
  pen.globalAlpha = 1;
}
/**
 * What each group has without the groups below it, stacked: the greatest ones, above them all others, and the limit of
 * the lit group.
 */
function drawStack(pen, run, lives, frame, view, x) {
  const { left, top, wide, high } = frame, columns = stackedColumns(run, lives, view, wide), sums = new Map();
  for (const column of columns) for (const [life, pages] of column)
    sums.set(life, Math.max(sums.get(life) ?? 0, pages));
  const greatest = new Set(sortedBy([...sums.keys()], life => -sums.get(life)).slice(0, 2 * MOST_CURVES)),
    rest = { ...OTHERS, path: `${grouped(sums.size - greatest.size)} others` };
  const shown = columns.map(column => [...column.filter(([life]) => greatest.has(life)),
    ...(sums.size > greatest.size ?
    [[rest, column.reduce((sum, [life, pages]) => sum + (greatest.has(life) ? 0 : pages), 0)]] : [])]);
  const bound = page.life?.limits,
    most = Math.max(1, ...columns.map(column => column.reduce((sum, [, pages]) => sum + pages, 0)),
    ...(bound ? [mostIn(bound, view)] : []));
  const y = pages => top + high - pages / most * high;
  drawScale(pen, frame, most, y);
  shown.forEach((column, at) => {
    let below = 0;
    for (const [life, pages] of column) {
      below += pages;
      pen.fillStyle = styleAt(life.style).color;
      pen.fillRect(left + at, y(below), 1, pages / most * high);
    }
  });
  if (bound) drawSteps(pen, page.life, bound, view, x, y, { width: 2, dash: BOUND_DASHES.limits });
  let below = 0;
  return (shown.at(-1) ?? []).map(([life, pages]) => [life, y((below += pages) - pages / 2) + 4, pages]).filter(
    ([, , pages]) => pages);
}
/**
 * Of each column of pixels the groups that are there, in the order of their paths, each with what it has without those
 * below it.
 */
function stackedColumns(run, lives, view, wide) {
  const columns = [];
  let there = [], next = 0; // lives are in the order in which they begin
  for (let at = 0; at < wide; at++) {
    const position = Math.round(placeAt(run, view, at / wide)), below = new Map();
    while (next < lives.length && lives[next].from <= position) there.push(lives[next++]);
    there = there.filter(life => isThereAt(life, position)).sort((a, b) => a.path < b.path ? -1 : 1);
    for (const life of there) {
      const parent = parentPath(life.path), usage = valueAt(life.series, position);
      if (life.path !== "/") below.set(parent, (below.get(parent) ?? 0) + usage);
    }
    columns.push(there.map(life => [life, valueAt(life.series, position) - (below.get(life.path) ?? 0)]));
  }
  return columns;
}
/** A row for each group, with a scale of its own: the greatest ones, as many as there is room for. */
function drawSideBySide(pen, curves, { left, top, wide, high }, view, x) {
  const count = Math.max(1, Math.min(curves.length, Math.floor(high / 16))), row = high / count;
  const shown = sortedBy(curves, ({ series }) => -mostIn(series, view)).slice(0, count).sort(
    (a, b) => a.path < b.path ? -1 : 1);
  shown.forEach((life, at) => {
    const bottom = top + (at + 1) * row - 2, most = scaleOf([life], view),
      y = pages => bottom - pages / most * (row - 4);
    pen.fillStyle = css("soft");
    pen.fillRect(left, bottom, wide, 1);
    drawBounds(pen, life, view, x, y);
    drawSteps(pen, life, life.series, view, x, y, { width: 2 });
    rightText(pen, amount(most), left - 6, bottom - row / 2 + 6, css("muted"), left - 6);
  });
  page.unshown = curves.length - count;
  return shown.map((life, at) => [life, top + (at + 0.5) * row + 4]);
}
const killedLives = run => run.killed ??=
  new Set(run.events.filter(({ kind, life }) => kind === "kill" && life).map(({ life }) => life));
/**
 * The names of the groups at the right, as many as there is room for: the killed ones, then those whose usage was
 * greatest.
 */
function drawEnds(pen, run, ends, { left, top, wide, high, right }, width, view) {
  page.named = [];
  page.namedAt = [];
  if (right < 40) return;
  const killed = killedLives(run), most = Math.floor((top + high - 4) / 12),
    room = ends.length > most ? most - 1 : most, x = left + wide + 6;
  const rank = ([life]) => (killed.has(life) ? -(2 ** 32) : life.isRest ? -(2 ** 33) : 0) - mostIn(life.series, view);
  const shown = sortedBy(ends, rank).slice(0, room).sort((a, b) => a[1] - b[1]);
  let free = ends.length > room ? 10 : -2;
  for (const [index, [life, wanted]] of shown.entries()) {
    const at = free = Math.min(Math.max(free + 12, wanted), top + high + 6 - 12 * (shown.length - 1 - index));
    fillStyled(pen, styleAt(life.style), x, at - 9, 10, 10);
    const sign = killed.has(life) ? "◆ " : "", wide = width - x - 16 - pen.measureText(sign).width;
    write(pen, `${sign}${tailOf(life.path, text => pen.measureText(text).width <= wide)}`, x + 14, at,
      css(sign ? "purple" : "text"), width - x - 16);
    page.named.push(life);
    page.namedAt.push(at);
  }
  if (ends.length > room) write(pen, `and ${ends.length - room} more`, x, 10, css("muted"), width - x);
}
/** The seconds of the last sample up to a line, of a log of `tools/whatif`. */
export const secondsText = (run, position) => `${grouped(valueAt(run.seconds, position))} s`;
/** Round numbers from one to another: about so many. */
function roundNumbers(from, until, count) {
  const least = (until - from) / count, unit = 10 ** Math.floor(Math.log10(least)),
    step = unit * [1, 2, 5, 10].find(each => each * unit >= least * 0.999);
  return Array.from({ length: Math.floor(until / step + 1e-9) - Math.ceil(from / step - 1e-9) + 1 },
    (_, at) => (Math.ceil(from / step - 1e-9) + at) * step);
}
/** The lines' numbers below the usages, or round seconds. */
function drawPlaces(pen, run, { left, wide, over }, view, x) {
  const parts = wide < 420 ? 2 : 4, [from, until] = view.map(at => run.axisOf(at)),
    isTimed = run.isTimed && until > from;
  const places = isTimed ? roundNumbers(from, until, wide < 420 ? 3 : 8).map(
    time => [left + (time - from) / (until - from) * wide, `${grouped(time)} s`]) :
    Array.from({ length: parts + 1 }, (_, at) => Math.round(view[0] + (view[1] - view[0]) * at / parts))
      .map(position => [x(position), position ? `line ${run.lineNumbers.at(position)}` : "boot"]);
  for (const [at, text] of places) {
    pen.textAlign = at < left + 20 ? "left" : at < left + wide - 20 ? "center" : "right";
    write(pen, text, at, over - 5, css("muted"), 100);
    pen.textAlign = "left";
  }
}
/** The whole run, and which part of it is above. */
function drawOverview(pen, run, { left, wide, over }, view, life) {
  const whole = [0, run.lines], x = axisIn(run, whole, left, wide), most = Math.max(1, mostIn(life.series, whole));
  pen.fillStyle = css("soft");
  pen.fillRect(left, over, wide, OVERVIEW);
  drawSteps(pen, life, life.series, whole, x, pages => over + OVERVIEW - 1 - pages / most * (OVERVIEW - 3), {});
  pen.fillStyle = css("accent");
  pen.globalAlpha = 0.18;
  pen.fillRect(x(view[0]), over, x(view[1]) - x(view[0]), OVERVIEW);
  pen.globalAlpha = 1;
  pen.strokeStyle = css("accent");
  pen.strokeRect(x(view[0]) + 0.5, over + 0.5, x(view[1]) - x(view[0]) - 1, OVERVIEW - 1);
}
export function rightText(pen, text, x, y, color, room = 84) {
  pen.textAlign = "right";
  write(pen, text, x, y, color, room);
  pen.textAlign = "left";
}
