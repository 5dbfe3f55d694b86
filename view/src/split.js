// The sizes of the panels, in hundredths of the window

import { nameAddress } from "./address.js";
import { byId, page } from "./page.js";

// Of each: the panel, whether its width or height is meant, and whether it begins at its left edge.
const SPLITS = { left: ["script-part", "x", true], line: ["line-part", "y"], events: ["events-part", "y"],
  right: ["groups-part", "x"], time: ["time-box", "y"] };
export const panelSizes = new Map(); // of those that were changed

/** Gives a panel this size; without one, its first one. */
function setSize(name, percent) {
  const size = Math.max(8, Math.min(70, Math.round(percent))), root = document.documentElement.style;
  if (Number.isNaN(size)) {
    panelSizes.delete(name);
    root.removeProperty(`--size-${name}`);
  } else {
    panelSizes.set(name, size);
    root.setProperty(`--size-${name}`, `${size}${SPLITS[name][1] === "x" ? "vw" : "vh"}`);
  }
  byId(`split-${name}`).setAttribute("aria-valuenow", sizeOf(name));
  if (page.run) nameAddress();
}
function sizeOf(name) {
  const [id, axis] = SPLITS[name], box = byId(id).getBoundingClientRect();
  return Math.round(axis === "x" ? 100 * box.width / innerWidth : 100 * box.height / innerHeight);
}
function dragSplit(event, name) {
  const [id, axis, isFirst] = SPLITS[name], box = byId(id).getBoundingClientRect();
  if (event.type === "pointerdown") event.target.setPointerCapture(event.pointerId);
  else if (event.buttons & 1)
    setSize(name, axis === "x" ? 100 * (isFirst ? event.clientX - box.left : box.right - event.clientX) / innerWidth :
    100 * (box.bottom - event.clientY) / innerHeight);
}
function keySplit(event, name) {
  const by = { ArrowUp: 2, ArrowDown: -2, ArrowLeft: SPLITS[name][2] ? -2 : 2,
    ArrowRight: SPLITS[name][2] ? 2 : -2 }[event.key];
  if (!by && event.key !== "Enter") return;
  event.preventDefault();
  event.stopPropagation();
  setSize(name, by ? sizeOf(name) + by : NaN);
}
export function wireSplits() {
  for (const name of Object.keys(SPLITS)) {
    const line = byId(`split-${name}`);
    line.title = "Drag, or use the arrow keys; Enter or two clicks give the first size";
    line.setAttribute("aria-valuenow", sizeOf(name));
    for (const type of ["pointerdown", "pointermove"]) line.addEventListener(type, event => dragSplit(event, name));
    line.addEventListener("dblclick", () => setSize(name, NaN));
    line.addEventListener("keydown", event => keySplit(event, name));
  }
}
/** The sizes as the address has them, and back. */
export const sizesText = () => [...panelSizes].map(([name, size]) => `${name}.${size}`).join("_");
export function followSizes(text) {
  for (const [, name, size] of text.matchAll(/([a-z]+)\.(\d+)/g))
    if (Object.hasOwn(SPLITS, name)) setSize(name, Number(size));
}
