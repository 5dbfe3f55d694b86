// Keys and pointers

import { otherTheme, setTheme } from "./draw.js";
import { goEvent } from "./events.js";
import { KINDS, LANES } from "./explain.js";
import { WAYS, go, goLock, goNext, goWay, jump, light, pick, play, stop } from "./go.js";
import { peakAt } from "./groups.js";
import { cellOf, frameAt, frameOfCell } from "./map.js";
import { byId, page } from "./page.js";
import { positionOf } from "./script.js";
import { followSizes } from "./split.js";
import { centerTime, drawTimeline, hereShare, panTime, showTime, zoomTime } from "./time.js";
import { LANE, isThereAt, placeAt, timeFrame } from "./timeline.js";
import { panZone, zoomZone } from "./zone.js";

const KEYS = {
  ArrowLeft: event => go(page.run.position - (event.shiftKey ? 10 : 1)),
  ArrowRight: event => go(page.run.position + (event.shiftKey ? 10 : 1)),
  PageUp: () => go(page.run.position - 100),
  PageDown: () => go(page.run.position + 100),
  Home: () => go(0),
  End: () => go(page.run.lines),
  " ": play,
  ...Object.fromEntries(Object.keys(WAYS).flatMap(key =>
  [[key, () => goWay(key, true)], [key.toUpperCase(), () => goWay(key, false)]])),
  p: () => goLock(true),
  P: () => goLock(false),
  Escape: () => {
    stop();
    if (page.life || page.cpu) light(null);
    else if (page.frame >= 0) pick(-1);
  }
};
/** Help, from its beginning. */
export function showTerms() {
  byId("terms").showModal();
  byId("terms").scrollTop = 0;
}
const ALWAYS = {
  t: otherTheme,
  o: () => byId("file").click(),
  "?": showTerms,
  "/": () => byId("find").focus()
};

export function onKey(event) {
  const { tagName } = event.target,
    isOwn = tagName === "INPUT" || tagName === "SELECT" &&
    !/^[a-z?/]$/i.test(event.key); // a select needs arrows and Space
  if (event.ctrlKey || event.altKey || event.metaKey || byId("terms").open || isOwn) return;
  if (event.key === " " && event.target.tagName === "BUTTON") return;
  const act = event.target.id === "zone" && page.run ? zoneKey(event) :
    event.target.id === "script" && page.run ? scriptKey(
      event) : event.target.id === "events" && page.run ? eventsKey(event) :
      event.target.id === "time" && page.run ? timeKey(event) : null,
    found = act ?? ALWAYS[event.key] ?? (page.run ? KEYS[event.key] : null);
  if (!found || !Object.hasOwn({
      ...KEYS,
      ...ALWAYS
    }, event.key) && !act) return;
  event.preventDefault();
  found(event);
}
/** In the zone, keys pick a frame: left and right the one before and after, up and down the one above and below. */
function zoneKey(event) {
  const layout = page.layout, last = page.run.frames - 1, zoom = { "+": 0.25, "=": 0.25, "-": 4 }[event.key],
    pan = { "[": -1, "]": 1 }[event.key],
    rows = { ArrowUp: -1, ArrowDown: 1, PageUp: -10, PageDown: 10 } [event.key];
  if (zoom) return () => zoomZone(zoom);
  if (pan) return () => panZone(pan);
  if (event.key === "0") return () => zoomZone(Infinity);
  if (rows) return () => {
    const [column, row] = cellOf(layout, Math.max(layout.first, page.frame)),
      frame = page.frame < 0 ? 0 : frameOfCell(layout, column, row + rows);
    const beyond = page.frame + rows * layout.columns;
    if (frame >= 0) pick(frame);
    else if (!layout.isSmall && beyond >= 0 && beyond <= last) pick(beyond);
  };
  const frame = { ArrowLeft: page.frame - 1, ArrowRight: page.frame + 1, Home: 0, End: last } [event.key];
  return frame === undefined ? null : () => pick(Math.max(0, Math.min(last, frame)));
}
const eventsKey = event => ({
  ArrowUp: () => goEvent(-1),
  ArrowDown: () => goEvent(1)
})[event.key] ?? null;
const scriptKey = event => ({
  ArrowUp: () => go(page.run.position - 1),
  ArrowDown: () => go(page.run.position + 1)
})[event.key] ?? null;

/**
 * At which share of the time line the pointer is, whether it is on the overview, and whether it is beside it, on the
 * names.
 */
function timeShare(event) {
  const box = byId("time").getBoundingClientRect(), { left, wide, over } = timeFrame(...page.timeSize),
    x = event.clientX - box.left - left;
  return [Math.max(0, Math.min(1, x / wide)), event.clientY - box.top >= over, x < -6 || x > wide + 6];
}
export const fingers = new Map(); // the shares at which fingers are
export function pointTime(event) {
  if (!page.run) return;
  const [share, isOverview, isBeside] = timeShare(event);
  if (event.pointerType === "touch" && pinch(event, share)) return;
  const position = Math.round(placeAt(page.run, page.view, share));
  if (event.type === "pointerdown") {
    Object.assign(page, { isOverview, isBeside });
    if (goMark(event, isBeside)) return;
  }
  if (!(event.buttons & 1)) {
    page.hover = isOverview || isBeside ? null : position;
    return drawTimeline();
  }
  if (page.isBeside) return;
  if (page.isOverview) return centerTime(share);
  page.hover = null;
  if (position !== page.run.position) go(position);
}
/** A mark leads to its line; the name of a row of marks to the next of them. Returns whether there was one. */
function goMark(event, isBeside) {
  const box = byId("time").getBoundingClientRect(),
    lane = Object.keys(LANES)[Math.floor((event.clientY - box.top - 1) / LANE)], { left } = timeFrame(...page.timeSize);
  if (isBeside && event.clientX > box.left + left) {
    const named = page.named[page.namedAt.findIndex(at => Math.abs(event.clientY - box.top - at + 4) <= 6)];
    if (named?.peaks) jump(peakAt(named, Infinity));
    return named !== undefined;
  }
  if (!lane) return false;
  const places = page.shown.filter(({ kind }) => KINDS[kind][3] === lane).map(({ position }) => position);
  if (isBeside) goNext(places, true, `no later mark of ${lane}`);
  const near = places.map(place => [Math.abs(page.timeX(place) - event.clientX + box.left), place]).sort(
    ([one], [two]) => one - two)[0];
  if (!isBeside && !(near?.[0] <= 8)) return false;
  page.isBeside = true;
  if (!isBeside) jump(near[1]);
  return true;
}
/** Two fingers zoom by how much their distance changes, and pan by how far both go. */
function pinch(event, share) {
  const of = () => [...fingers.values()], before = of();
  fingers.set(event.pointerId, share);
  const now = of(), [was, is] = [before, now].map(([one, other]) => Math.abs(one - other)),
    middle = (now[0] + now[1]) / 2;
  if (now.length < 2) return false;
  if (event.type !== "pointermove" || before.length < 2) return true;
  if (is > 0.02 && was > 0.02) zoomTime(was / is, middle);
  panTime((before[0] + before[1]) / 2 - middle);
  return true;
}
/** The wheel zooms at the pointer. With Shift, or if it goes sideways, it pans. */
export function wheelTime(event) {
  if (!page.run || event.ctrlKey) return;
  event.preventDefault();
  const sideways = event.shiftKey ? event.deltaY || event.deltaX :
    Math.abs(event.deltaX) > Math.abs(event.deltaY) ? event.deltaX : 0;
  if (sideways) panTime(Math.sign(sideways) * 0.1);
  else zoomTime(event.deltaY > 0 ? 1.25 : 0.8, Number(timeShare(event)[0]));
}
const timeKey = event => ({
  "+": () => zoomTime(0.5, hereShare()),
  "=": () => zoomTime(0.5, hereShare()),
  "-": () => zoomTime(2, hereShare()),
  "0": () => showTime(0, page.run.lines),
  "[": () => panTime(-0.5),
  "]": () => panTime(0.5)
})[event.key] ?? null;

function zoneFrame(event) {
  const box = byId("zone").getBoundingClientRect();
  return frameAt(page.layout, event.clientX - box.left, event.clientY - box.top);
}
export function pointZone(event) {
  if (!page.run || !page.layout) return;
  const frame = zoneFrame(event);
  if (frame >= 0) pick(frame);
}
export function wheelZone(event) {
  if (!page.run || !page.layout || event.ctrlKey) return;
  event.preventDefault();
  if (event.shiftKey) return panZone(Math.sign(event.deltaY || event.deltaX));
  const frame = zoneFrame(event);
  zoomZone(event.deltaY > 0 ? 4 : 0.25, frame < 0 ? undefined : frame);
}
export const touches = new Map(); // where fingers are on the zone
/**
 * Two fingers zoom each time that their distance is double or half of what it was, and pan each time that both went 80
 * pixels.
 */
export function pinchZone(event) {
  if (event.pointerType !== "touch" || !page.run) return;
  touches.set(event.pointerId, [event.clientX, event.clientY]);
  const [one, other] = [...touches.values()], now = other ? Math.hypot(one[0] - other[0], one[1] - other[1]) : 0,
    middle = other ? (one[0] + other[0]) / 2 : 0;
  if (!other || !page.spread) return Object.assign(page, { spread: now, middle });
  const isWider = now > 2 * page.spread, hasGone = Math.abs(middle - page.middle) > 80;
  if (isWider || 2 * now < page.spread) zoomZone(isWider ? 0.25 : 4);
  else if (hasGone) panZone(middle < page.middle ? 1 : -1);
  else return;
  Object.assign(page, { spread: now, middle });
}
/**
 * Words like #line=25&frame=4&group=/a&theme=dark open the page there. A group may be a number, and one of many lives.
 */
export function followHash(hash = location.hash) {
  const words = new URLSearchParams(hash.slice(1)),
    number = name => /^\d{1,7}$/.test(words.get(name) ?? "") ? Number(words.get(name)) : null, run = page.run;
  if (words.get("theme") === "dark" || words.get("theme") === "light") setTheme(words.get("theme"));
  followSizes(words.get("panels") ?? "");
  if (!run) return;
  const line = number("line"), frame = number("frame"), group = number("group"), path = words.get("group");
  if (line !== null) go(positionOf(line));
  if (frame !== null && frame < run.frames) pick(frame);
  const lives = run.lives.filter(each => each.path === path),
    life = group !== null ? group < run.mostGroups && run.life(group) :
    lives.find(each => each.index === number("life")) ?? lives.find(each => isThereAt(each, run.position)) ?? lives[0];
  if (life) light(life);
  else if (number("cpu") > 0 && number("cpu") <= run.cpus) light(null, number("cpu"));
}
