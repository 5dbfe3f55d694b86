// The panel of the zone

import { changedSpans } from "./changes.js";
import { draw } from "./draw.js";
import { litNow } from "./go.js";
import { TILE, drawBlock, drawFrames, frameOfCell, layoutOf, rectsOf, write } from "./map.js";
import { byId, make, page } from "./page.js";
import { colors, css, penOf, sheets, styleGroups, styles, useStyles } from "./paint.js";
import { positionOf } from "./script.js";
import { UNIT, groupList, orderOf, placeOf } from "./state.js";
import { rightText } from "./timeline.js";
import { grouped, plural } from "./words.js";

/** Shows so many frames around this one: an aligned block, or the whole zone. */
export function showFrames(frame, count) {
  const { run } = page, size = Math.max(16, 2 ** Math.round(Math.log2(count))), first = Math.floor(frame / size) * size;
  page.zone = size >= run.frames ? [0, run.frames] : [first, Math.min(size, run.frames - first)];
}
/** Zooms the zone by a factor, around a frame: the picked one, or the one in the middle. */
export function zoomZone(factor, frame = page.frame) {
  const [first, count] = page.zone, size = first || count < page.run.frames ? 2 ** Math.ceil(Math.log2(count)) : count;
  showFrames(frame < first || frame >= first + count ? first : frame, size * factor);
  draw();
}
/** Goes to the block of frames before or after the one that is shown. */
export function panZone(by) {
  const [first, count] = page.zone, size = 2 ** Math.ceil(Math.log2(count)), to = first + by * size;
  if (to >= 0 && to < page.run.frames && count < page.run.frames) showFrames(to, size);
  draw();
}
/** Whether the zone looks as at the position for which it was drawn last, but for its outlines. */
function isZoneDrawn(run, key) {
  const was = page.zoneAt, isSame = key === page.zoneKey && Math.abs(was - run.position) < 2 &&
    (was === run.position || !run.movesFrames(Math.max(was, run.position)));
  Object.assign(page, { zoneKey: key, zoneAt: run.position });
  return isSame;
}
/** The frames, on a sheet of their own, and over them what this line changed and the frame that is picked. */
export function drawZone() {
  const run = page.run, [width, height] = page.zoneSize, lit = litNow(), labels = run.frames > 64 ? 58 : 40,
    sheet = sheets.zone ??= make("canvas");
  if (width < 30 || height < 30) return;
  const { other } = page,
    isDrawn = isZoneDrawn(run,
    [width, height, ...page.zone, colors.theme, page.life?.index, page.cpu, ...(lit?.groups ?? [])].join(" ")) &&
    !other, marks = changedFrames(run);
  if (!isDrawn) {
    const pen = penOf(sheet, width, height), wide = other ? width / 2 : width;
    [page.layout, page.free] = drawMap(pen, run, lit, 0, wide, height, labels);
    if (other) drawSecond(pen, other, wide, height, labels);
  }
  const { layout, frame } = page, marked = `${frame} ${marks.join(" ")}`;
  if (isDrawn && marked === page.marked) return;
  page.marked = marked;
  const pen = penOf(byId("zone"), width, height);
  pen.drawImage(sheet, 0, 0, width, height);
  for (const [first, last] of marks) outline(pen, layout, first, last, css("text"));
  if (layout.isSmall && lit?.has) for (const head of lit.has.keys()) outline(pen, layout, head, head, css("accent"), 1);
  if (frame >= 0) outline(pen, layout, frame, frame, css("accent"), 3);
  sayZone(run, lit, page.free);
}
/** The frames of a run in a part of the zone's canvas, with numbers at the left: their layout, and what is free. */
function drawMap(pen, run, lit, left, width, height, labels) {
  const layout = layoutOf(...page.zone, width - labels - 6, height - 4, left + labels, 2),
    free = drawFrames(pen, run, layout, lit);
  const every = layout.isSmall ? TILE * Math.max(1, Math.ceil(14 / layout.high / TILE)) :
    Math.max(1, Math.ceil(14 / layout.high));
  for (let row = 0; row < layout.rows && (!row || layout.top + row * layout.high + 11 <= height); row += every)
    rightText(pen, `${frameOfCell(layout, 0, row)}`, layout.left - 5, layout.top + row * layout.high + 11,
    css("muted"));
  return [layout, free];
}
/** The part of the second run's zone that is shown: the same frames, or the whole zone if the first is shown whole. */
function otherZone(run, other) {
  const [first, count] = page.zone;
  return count === run.frames ? [0, other.frames] :
    first >= other.frames ? null : [first, Math.min(count, other.frames - first)];
}
/** The second run's frames at the same line, at the right. */
function drawSecond(pen, other, wide, height, labels) {
  const { run, zone } = page, ours = styles, its = otherZone(run, other);
  if (!its) return write(pen, `the second zone ends at frame ${other.frames - 1}`, wide + 8, 20, css("muted"),
    wide - 8);
  other.goto(positionOf(run.lineNumbers.at(run.position), other));
  styleGroups(other);
  page.zone = its;
  drawMap(pen, other, null, wide, wide, height, labels);
  Object.assign(page, { zone });
  useStyles(ours);
}
const MOST_OUTLINES = 400;
/** The frames that this line changed, in spans. */
export function changedFrames(run) {
  if (!run.position) return [];
  const { flags, pins } = run.changes(), heads = new Set([...flags, ...[...pins].map(pin => run.pinNames[pin][1])]);
  return [...changedSpans(run).slice(0, MOST_OUTLINES).map(({ first, last }) => [first, last]),
    ...[...heads].filter(head => run.cells[head] >= UNIT)
    .map(head => [head, head + 2 ** orderOf(run.cells[head]) - 1])];
}

export function outline(pen, layout, first, last, color, thick = 2.5) {
  for (const [x, y, width, height] of rectsOf(layout, first, last)) {
    const grow = layout.isSmall ? 2 : 0;
    pen.lineWidth = thick + 2;
    pen.strokeStyle = css("panel");
    pen.strokeRect(x + 1 - grow, y + 1 - grow, width - 2 + 2 * grow, height - 2 + 2 * grow);
    pen.lineWidth = thick;
    pen.strokeStyle = color;
    pen.strokeRect(x + 1 - grow, y + 1 - grow, width - 2 + 2 * grow, height - 2 + 2 * grow);
  }
}

function sayZone(run, lit, {
  blocks,
  greatest
}) {
  const free = run.cells[run.FREE], lent = run.cells[run.LENT], [first, count] = page.zone;
  if (count < run.frames)
    blocks = `${blocks} free blocks here, among frames ${grouped(first)} to ${grouped(first + count - 1)}`;
  byId("zone-said").textContent = count < run.frames ? `${blocks} of ${grouped(run.frames)}` :
    `${grouped(free)} free in ${plural(blocks, "block")}${blocks ? `, up to order ${Math.log2(greatest)}` :
    ""} · ${grouped(lent)} on lists · ${grouped(run.frames - free - lent)} charged`;
  if (page.other) byId("zone-said").textContent +=
    ` · at the right the second run${page.other.frames === run.frames ? "" :
    `, of ${plural(page.other.frames, "frame")}`}`;
  const size = lit?.groups?.size ?? 1, outlined = run.position ? changedSpans(run).length : 0;
  if (outlined > MOST_OUTLINES)
    byId("zone-said").textContent += ` · ${MOST_OUTLINES} of ${grouped(outlined)} changes outlined`;
  byId("zone-said").title = byId("zone-said").textContent;
  byId("lit-said").textContent =
    lit ? `lit: ${lit.of}${size > 1 ? ` and ${size - 1} below` :
    size ? "" : page.life.until <= run.position ? `, removed on line ${run.lineNumbers.at(page.life.until)}` :
    ", not made yet"}` : "";
}

// The legend's entries: the place, list, flags and pins of a frame that has such a mark.
/** @type {[string, { place?: number, list?: number, flags?: number, pins?: number }][]} */
const LEGEND = [
  ["free", { place: 0 }],
  ["on a CPU's list", { place: 1, list: 1 }],
  ["fresh", { list: 2 }],
  ["charged, by group", {}],
  ["dirty", { flags: 1 }],
  ["marked", { flags: 2 }],
  ["active", { list: groupList(2, true) }],
  ["pinned", { pins: 1 }],
  ["released, pins remain", { list: 0, pins: 1 }]
];

export function drawLegend() {
  const key = (name, draw) => {
    const canvas = make("canvas", { "aria-hidden": "true" });
    draw(penOf(canvas, 16, 16));
    return make("span", {}, canvas, name);
  };
  const items = LEGEND.map(([name, {
    place = placeOf(2, 0),
    list = groupList(2, false),
    flags = 0,
    pins = 0
  }]) => key(name, pen => {
    const run = { cells: [place], list: () => list, flags: () => flags, pinsOn: () => pins, path: () => "" };
    drawBlock(pen, run, layoutOf(0, 1, 16, 16, 0, 0), null, 0, 1, place);
  }));
  byId("legend").replaceChildren(...items, key("changed by this line", pen => {
    pen.lineWidth = 2.5;
    pen.strokeStyle = css("text");
    pen.strokeRect(2, 2, 12, 12);
  }));
}
