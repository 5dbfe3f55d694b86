// The picture of a kill, or of the tightest moment: how the usage came up to the limit, who died, what was reclaimed
// before, what would have saved the group, and the zone before and after

import { memoryOf, memoryText } from "./amounts.js";
import { fill } from "./groups.js";
import { nameOf } from "./line.js";
import { drawFrames, layoutOf, plate, write } from "./map.js";
import { indexAt, indexIn, mostIn, startOf, valueAt, valueOf } from "./numbers.js";
import { byId, page } from "./page.js";
import { colors, css, fillStyled, penOf, styleAt, styleGroups } from "./paint.js";
import { parentPath } from "./state.js";
import { axisIn, drawSteps, isInView, isThereAt, placeAt, rightText, sortedBy } from "./timeline.js";
import { placeName, waysToLive } from "./verdict.js";
import { grouped } from "./words.js";
import { changedFrames, outline } from "./zone.js";

const MOST_BANDS = 3; // groups beside the victim
const LABEL = 15; // pixels of a line of text

/** The kill at the position that is shown, the last one that was, or the first of the run. */
function killShown(run) {
  const first = kills => kills.find(({ life, choice }) => life && life.path === choice?.victim) ?? kills[0];
  const here = run.eventsAt(run.position).filter(({ kind }) => kind === "kill");
  return first(here) ?? page.pictured ?? (run.firstKill ??= first(killsTogether(run)) ?? null);
}
/** The kills at the first position that has one. */
function killsTogether(run) {
  const kills = run.events.filter(({ kind }) => kind === "kill");
  return kills.filter(({ position }) => position === kills[0].position);
}
/** The life that a path has before a position. */
const lifeBefore = (run, path, position) =>
  run.lives.find(life => life.path === path && life.from <= position && (life.until ?? Infinity) >= position);

/**
 * @typedef {object} Moment
 * @property {number} position
 * @property {any} limited the life whose limit it is
 * @property {number} max
 * @property {number | null} usage
 * @property {number} need pages that had no room
 * @property {any} [kill] the event
 * @property {any} [choice] what made it
 * @property {boolean} [isZone] whether the limit is the zone's size
 */
/**
 * @returns {Moment} What is pictured: its position, the limit with the life it is of, and of a kill the victim and what
 * made it.
 */
function momentOf(run) {
  const kill = killShown(run), { choice } = kill ?? {}, limited = choice && lifeBefore(run, choice.path, kill.position);
  if (limited) return { position: kill.position, limited, max: choice.max, usage: choice.usage, need: choice.need, kill,
    choice };
  const { tight, leastFree: [position, free] } = run, root = run.lives[0];
  if (kill || !tight?.life) return { position: kill?.position ?? position, limited: root, max: run.frames,
    usage: kill ? null : run.frames - free, need: 0, kill, isZone: true };
  return { position: tight.position, limited: tight.life, max: tight.max, usage: tight.usage, need: tight.need };
}
/** What the page opens at: the fault, the first kill, or the tightest moment. */
export const openingOf = run => run.fault?.position ?? momentOf(run).position;

/**
 * The part of the run that is pictured: from where the usage was last below half of what it came to, on to some lines
 * after.
 */
function partOf(run, { position, limited }) {
  const { series } = limited, half = valueAt(series, position - 1) / 2;
  let at = indexAt(series, position - 1);
  while (at > 0 && valueOf(series, at) > half) at--;
  const from = Math.max(0, Math.min(startOf(series, at) ?? 0, position - 2)),
    [start, here] = [from, position].map(each => run.axisOf(each));
  return [from, Math.max(Math.min(run.lines, position + 1), run.positionAt(here + (here - start) * 0.3))];
}
/**
 * The groups whose usage is stacked, lowest first, each with its usage at a position: the victim, then its greatest
 * neighbours.
 */
function bandsOf(run, { limited, kill, position }, view) {
  const victim = kill?.life, prefix = limited.path === "/" ? "/" : `${limited.path}/`, below = run.lives.filter(life =>
    life !== victim && life !== limited && parentPath(life.path) === limited.path && isInView(life, view) &&
    !(victim && victim.path.startsWith(`${life.path}/`)));
  const greatest = sortedBy(below, life => -valueAt(life.series, position - 1)).slice(0, MOST_BANDS);
  const isBelow = victim && victim !== limited && victim.path.startsWith(prefix);
  return [...(isBelow ? [victim] : []), ...greatest];
}
const usageAt = (life, position) => isThereAt(life, position) ? valueAt(life.series, position) : 0;

/** Draws the usages that came up to the limit, in this part of a canvas. */
function drawRise(pen, run, moment, [left, top, wide, high]) {
  const view = partOf(run, moment), { limited, max, usage, need, position, kill } = moment,
    bands = bandsOf(run, moment, view);
  const before = usage ?? usageAt(limited, position - 1),
    most = Math.max(before + need, max, mostIn(limited.series, view)) * 1.12 || 1;
  const x = axisIn(run, view, left, wide), y = pages => top + high - pages / most * high, here = x(position);
  const rest = { style: limited.style };
  for (let at = 0; at < wide; at++) {
    const place = Math.floor(placeAt(run, view, (at + 0.5) / wide)), all = usageAt(limited, place);
    let below = 0;
    for (const life of [...bands, rest]) {
      const pages = life === rest ? all - below : Math.min(usageAt(life, place), all - below);
      if (pages > 0) fillStyled(pen, styleAt(life.style), left + at, y(below + pages), 1.5, pages / most * high,
        life === rest);
      below += Math.max(0, pages);
    }
  }
  drawSteps(pen, limited, limited.series, view, x, y, { width: 1.5 });
  drawAxis(pen, run, view, [left, top, wide, high]);
  nameBands(pen, run, moment, bands, rest, here, y, left);
  const limit = (pages, color, dash, width) => {
    Object.assign(pen, { strokeStyle: css(color), lineWidth: width });
    pen.setLineDash(dash);
    pen.beginPath();
    pen.moveTo(left, y(pages));
    pen.lineTo(left + wide, y(pages));
    pen.stroke();
    pen.setLineDash([]);
  };
  limit(max, "red", [], 2.5);
  if (kill && need) limit(before + need, "green", [7, 4], 2);
  pen.strokeStyle = pen.fillStyle = css(kill ? "purple" : "accent");
  pen.fillRect(here - 0.75, top, 1.5, high);
  if (need) drawNeed(pen, here, y(before), y(before + need));
  for (const event of run.events.slice(indexIn(run.events, view[0] - 1, each => each.position) + 1)) {
    if (event.position > position) break;
    if (event.kind === "reclaim") sign(pen, "●", x(event.position), y(usageAt(limited, event.position)) - 3, "green");
  }
  return { y, here, before, view };
}
function sign(pen, text, x, y, color) {
  pen.textAlign = "center";
  write(pen, text, x, y, css(color), 30);
  pen.textAlign = "left";
}
/** What was to be charged, on top of the usage. */
function drawNeed(pen, x, bottom, top) {
  Object.assign(pen, { fillStyle: css("bad"), strokeStyle: css("red"), lineWidth: 1.5 });
  pen.fillRect(x - 7, top, 14, bottom - top);
  pen.strokeRect(x - 7, top, 14, bottom - top);
}
/** The names of the groups in their bands, before the moment. */
function nameBands(pen, run, { position, limited }, bands, rest, here, y, left) {
  const all = usageAt(limited, position - 1);
  let below = 0;
  for (const life of [...bands, rest]) {
    const pages = life === rest ? all - below : usageAt(life, position - 1), high = y(below) - y(below + pages);
    const name = life === rest ? bands.length ? "others" : limited.path : life.path,
      text = `${name} ${memoryText(pages)}`;
    pen.font = "11px system-ui, 'DejaVu Sans', sans-serif";
    const room = here - left - 14, wide = Math.min(room, pen.measureText(text).width);
    if (high >= 14 && room > 30)
      plate(pen, text, here - 12 - wide, y(below + pages / 2) + 4, styleAt(life.style).color, room);
    below += pages;
  }
}
function drawAxis(pen, run, view, [left, top, wide, high]) {
  pen.fillStyle = css("line");
  pen.fillRect(left, top + high, wide, 1);
  const text = position => run.isTimed ? `${grouped(Math.round(run.axisOf(position) * 10) / 10)} s` :
    position ? `line ${run.lineNumbers.at(position)}` : "boot";
  write(pen, text(Math.round(view[0])), left, top + high + 13, css("muted"), wide / 2);
  rightText(pen, text(Math.round(view[1])), left + wide, top + high + 13, css("muted"), wide / 2);
}
/** The labels below one another, each in as many lines as it needs. */
function drawLabels(pen, labels, left, wide, height) {
  let y = 14;
  pen.font = "11px system-ui, 'DejaVu Sans', sans-serif";
  for (const [color, words] of labels) {
    let row = "";
    for (const word of words.split(" ")) {
      const longer = row ? `${row} ${word}` : word;
      if (row && pen.measureText(longer).width > wide) {
        write(pen, row, left, y, css(color), wide);
        [row, y] = [`   ${word}`, y + LABEL - 2];
      } else row = longer;
    }
    if (y < height) write(pen, row, left, y, css(color), wide);
    y += LABEL + 2;
  }
}
/** What is said beside the picture: each with its colour. */
function labelsOf(run, moment) {
  const { position, limited, max, usage, need, kill, choice, isZone } = moment, line = run.line(position),
    [, , freed = 0] = /^# killed (\S+) returned \d+ bytes (\d+)/.exec(kill?.note ? run.textAt(kill.note) : "") ?? [];
  const name = nameOf(run, limited),
    labels = [["red", isZone ? `━ the zone: ${memoryText(max)}` : `━ limit of ${name}: ${memoryText(max)}`]];
  const whose = /^(?:alloc|fast) (\S+)/.exec(line?.command ?? "")?.[1];
  if (need) labels.push(["red", `▯ ${memoryText(need)} more${whose ? ` for ${whose}` : ""}: no room`]);
  else if (!isZone && usage > max) labels.push(["red", `the new limit is below the usage, ${memoryText(usage)}`]);
  else if (usage !== null)
    labels.push(["text", isZone ? `${memoryText(max - usage)} free at least` :
    `${memoryText(max - usage)} of room left`]);
  labels.push(reclaimLabel(run, moment));
  if (kill)
    labels.push(["purple",
    `◆ ${kill.life ? nameOf(run, kill.life) : "a group"} is killed${Number(freed) ? `: ${memoryOf(freed)} freed` :
    ""}`]);
  if (choice && kill.life)
    labels.push(...waysToLive(choice, kill.life.path).map(
    (way, at) => ["green", `${at ? "✓ or" : "╌ it lives"} with ${way}`]));
  return labels.filter(Boolean);
}
/** What was reclaimed below the limit before: or why nothing was, at a kill. */
function reclaimLabel(run, { position, limited, choice }) {
  const view = partOf(run, { position, limited }),
    sums = run.eventsAt(position).concat(run.events.slice(indexIn(run.events, view[0], ({ position: at }) => at) + 1,
    indexIn(run.events, position - 1, ({ position: at }) => at) + 1))
    .filter(({ kind, life }) => kind === "reclaim" && life &&
    (life === limited || life.path.startsWith(limited.path === "/" ? "/" : `${limited.path}/`)));
  const bytes = sums.reduce((sum, { note }) => sum + Number(/ bytes (\d+)/.exec(run.textAt(note))?.[1] ?? 0), 0);
  if (bytes) return ["green", `● ${memoryOf(bytes)} reclaimed before`];
  if (!choice) return null;
  const stuck = [["dirty", choice.dirty], ["pinned", choice.pinned - choice.dirty]].filter(([, pages]) => pages > 0)
    .map(([what, pages]) => `${memoryText(pages)} ${what}`);
  return ["muted", `● nothing to reclaim${stuck.length ? `: ${stuck.join(", ")}` : ""}`];
}
/** The frames that the position changed, in the least aligned block that has them all. */
function blockOf(run) {
  const spans = changedFrames(run),
    [first, last] = spans.length ? [Math.min(...spans.map(([at]) => at)), Math.max(...spans.map(([, at]) => at))] :
    [0, run.frames - 1];
  let size = 16;
  while (Math.floor(first / size) !== Math.floor(last / size)) size *= 2;
  const from = Math.floor(first / size) * size;
  return [from, Math.min(size, run.frames - from)];
}
/** The zone before and after, one map beside the other; after it, what the position changed is outlined. */
function drawBoth(pen, run, { position, kill }, [left, top, wide, high]) {
  const here = run.position, victim = kill?.life?.number ?? -1, side = (wide - 12) / 2;
  run.goto(position);
  const [first, count] = blockOf(run), marks = changedFrames(run);
  for (const [at, name, to] of [[Math.max(0, position - 1), "before", left], [position, "after", left + side + 12]]) {
    run.goto(at);
    styleGroups(run);
    write(pen, count < run.frames ? `${name}: frames ${grouped(first)}–${grouped(first + count - 1)}` : `zone ${name}`,
      to, top + 10, css("muted"), side);
    const layout = layoutOf(first, count, side, high - 16, to, top + 16);
    drawFrames(pen, run, layout, victim >= 0 && at < position ? { groups: new Set([victim]) } : null);
    if (at === position) for (const [from, until] of marks.slice(0, 100))
      outline(pen, layout, from, until, css("text"), 1.5);
  }
  run.goto(here);
  styleGroups(run);
}
const answerKey = run => [run.index, killShown(run)?.note, killShown(run)?.position, ...page.answerSize, colors.theme,
  page.unit, page.ratio].join();
/** Draws the picture anew if it shows another moment, or has another size. */
export function drawAnswer() {
  const { run, answerSize: [width, height] } = page, key = answerKey(run), canvas = byId("answer");
  if (width < 120 || height < 80 || key === page.answerKey) return;
  Object.assign(page, { answerKey: key, pictured: killShown(run) });
  const moment = momentOf(run), labels = labelsOf(run, moment);
  paintAnswer(penOf(canvas, width, height), run, moment, labels, width, height);
  fill(byId("answer-said"), headOf(run, moment));
  canvas.setAttribute("aria-label",
    `${headOf(run, moment)}: ${labels.map(([, text]) => text.replace(/^[^\w/]+/, "")).join("; ")}`);
}
/** @param {any} run @param {Moment} moment */
const headOf = (run, { position, kill, limited, isZone }) =>
  `${placeName(run, position)}: ${kill ? `${kill.life ? nameOf(run, kill.life) : "a group"} is killed` :
  isZone ? "least frames were free" : `least room below the limit of ${nameOf(run, limited)}`}`;
/** The picture, on a pen: usages, what is said of them, and the zone before and after, if there is room. */
function paintAnswer(pen, run, moment, labels, width, height) {
  const beside = width > 440 ? Math.min(width * 0.36, 1.7 * height) : 0, wide = width - beside - (beside ? 14 : 0),
    text = Math.max(Math.min(wide * 0.55, 250), Math.min(170, wide * 0.6));
  const { here } = drawRise(pen, run, moment, [6, 4, wide - text - 6, height - 22]);
  drawLabels(pen, labels, wide - text + 8, text - 10, height);
  if (beside) drawBoth(pen, run, moment, [width - beside, 0, beside - 4, height - 4]);
  return here;
}
