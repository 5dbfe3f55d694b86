// Colours, hatchings and pens

import { page } from "./page.js";

const OKABE_ITO = ["#e69f00", "#56b4e9", "#009e73", "#f0e442", "#0072b2", "#d55e00", "#cc79a7"];
const HATCHES = ["none", "diagonal", "dots", "lines", "cross", "back", "columns", "grid", "dashes"];
const DASHES = [[], [6, 3], [2, 2], [9, 3, 2, 3], [4, 4], [1, 3], [12, 4], [6, 2, 1, 2], [3, 6]];
export const styleAt = index => index ? {
  color: OKABE_ITO[(index - 1) % 7],
  hatch: HATCHES[Math.floor((index - 1) / 7) % 9],
  dash: DASHES[Math.floor((index - 1) / 7) % 9]
} : {
  color: "#5f6873",
  hatch: "grid",
  dash: []
};
/** The style of each group's number at this position, by its path. */
export let styles = [];
/** Gives the groups of this position their styles. */
export const styleGroups = run =>
  useStyles(Array.from({ length: run.mostGroups }, (_, group) => run.life(group)?.style ?? group));
export const useStyles = list => styles = list;
export const styleOf = group => styleAt(styles[group]);
/** The colours of the theme. */
export let colors = {};
const COLORS = ["page", "panel", "text", "muted", "line", "soft", "accent", "on-accent", "red", "purple", "green",
  "good", "bad", "free", "lent"];
/** Asks for the colours of a theme, all at once: each question makes the browser compute styles. */
export function useColors(theme) {
  const style = getComputedStyle(document.documentElement);
  colors = Object.fromEntries([["theme", theme],
    ...COLORS.map(name => [name, style.getPropertyValue(`--${name}`).trim()])]);
}
export const css = name => colors[name];
export const rgb = color => [1, 3, 5].map(at => parseInt(color.slice(at, at + 2), 16));
/** Whether black has more contrast on a colour than white (WCAG's relative luminance). */
const isBright = color => {
  const [r, g, b] = rgb(color).map(part => part / 255 <= 0.04045 ? part / 255 / 12.92 :
    ((part / 255 + 0.055) / 1.055) ** 2.4);
  return 0.2126 * r + 0.7152 * g + 0.0722 * b > 0.179;
};
export const inkOn = color => isBright(color) ? "#000000" : "#ffffff";

/** A tile of the hatching, without its ground. */
function hatchTile(hatch, ink) {
  const tile = document.createElement("canvas"), size = tile.width = tile.height = 8, pen = tile.getContext("2d");
  const stroke = (...points) => {
    pen.beginPath();
    for (let at = 0; at < points.length; at += 4) {
      pen.moveTo(points[at], points[at + 1]);
      pen.lineTo(points[at + 2], points[at + 3]);
    }
    pen.stroke();
  };
  pen.strokeStyle = pen.fillStyle = ink;
  pen.lineWidth = 1.6;
  if (hatch === "diagonal" || hatch === "cross") stroke(-2, 10, 10, -2, -2, 2, 2, -2, 6, 10, 10, 6);
  if (hatch === "back" || hatch === "cross") stroke(-2, -2, 10, 10, -2, 6, 2, 10, 6, -2, 10, 2);
  if (hatch === "lines" || hatch === "grid") stroke(0, 4, size, 4);
  if (hatch === "columns" || hatch === "grid") stroke(4, 0, 4, size);
  if (hatch === "dashes") stroke(0, 2, 4, 2, 4, 6, 8, 6);
  if (hatch === "dots") {
    pen.beginPath();
    pen.arc(2, 2, 1.3, 0, 7);
    pen.arc(6, 6, 1.3, 0, 7);
    pen.fill();
  }
  return tile;
}
const patterns = new Map();

export function patternOf(pen, { color, hatch }) {
  const ink = isBright(color) ? "#000000a0" : "#ffffffb0", key = hatch + ink;
  if (hatch === "none") return null;
  if (!patterns.has(key)) patterns.set(key, pen.createPattern(hatchTile(hatch, ink), "repeat"));
  return patterns.get(key);
}
/** Fills a rectangle with a group's colour and hatching. */
export function fillStyled(pen, style, x, y, width, height, isPale = false) {
  pen.globalAlpha = isPale ? 0.22 : 1;
  pen.fillStyle = style.color;
  pen.fillRect(x, y, width, height);
  const pattern = patternOf(pen, style);
  if (pattern && width >= 4 && height >= 4) {
    pen.fillStyle = pattern;
    pen.fillRect(x, y, width, height);
  }
  pen.globalAlpha = 1;
}
/** A pen for a canvas of this size in CSS pixels. */
export function penOf(canvas, width, height) {
  const ratio = page.ratio || window.devicePixelRatio || 1, wide = Math.round(width * ratio),
    high = Math.round(height * ratio);
  if (canvas.width !== wide || canvas.height !== high) {
    canvas.width = wide;
    canvas.height = high;
    canvas.style.width = `${width}px`;
    canvas.style.height = `${height}px`;
  }
  const pen = canvas.getContext("2d");
  pen.setTransform(ratio, 0, 0, ratio, 0, 0);
  pen.clearRect(0, 0, width, height);
  return pen;
}
/** @type {Record<string, any>} Canvases that aren't in the page, and what is known of letters: made once. */
export const sheets = {};
