// Small pictures in tables: a group's bar and swatch, a CPU's list

import { amount } from "./amounts.js";
import { css, fillStyled, penOf, styleAt, styleOf } from "./paint.js";

/** Of each group for which CPUs prepaid pages: how many, and which CPUs, with their pages. */
export function prepaidPages(run) {
  const prepaid = new Map();
  for (let cpu = 1; cpu <= run.cpus; cpu++) {
    const group = run.cells[run.STOCK_GROUP + cpu], pages = run.cells[run.STOCK_PAGES + cpu],
      { sum = 0, by = [] } = prepaid.get(group) ?? {};
    if (pages > 0) prepaid.set(group, { sum: sum + pages, by: [...by, `CPU ${cpu}: ${amount(pages)}`] });
  }
  return prepaid;
}
/** The bar of a group: its own frames, hatched what is fresh or prepaid, pale the groups below, a tick at the peak. */
export function drawBar(canvas, run, group, limit, prepaid) {
  const width = 48, height = 11, pen = penOf(canvas, width, height),
    scale = Math.max(limit < 0 ? run.frames : limit, run.row(group, "peak"), 1),
    at = pages => pages / scale * (width - 2);
  const own = run.cells[run.OWN + group], { color } = styleOf(group);
  pen.fillStyle = css("soft");
  pen.fillRect(0, 0, width, height);
  pen.globalAlpha = 0.4;
  pen.fillStyle = color;
  pen.fillRect(1, 1, at(run.row(group, "current")), height - 2);
  pen.globalAlpha = 1;
  pen.fillRect(1, 1, at(own), height - 2);
  for (let x = 0; x < at(prepaid); x += 3) pen.fillRect(1 + at(own) + x, 1, 1.5, height - 2);
  pen.fillStyle = css("text");
  pen.fillRect(at(run.row(group, "peak")), 0, 2, height);
  pen.strokeStyle = css("text");
  pen.lineWidth = 1;
  pen.setLineDash(run.row(group, "max") < 0 ? [2, 2] : []);
  pen.strokeRect(0.5, 0.5, width - 1, height - 1);
  pen.setLineDash([]);
}

export function drawSwatch(canvas, style) {
  const pen = penOf(canvas, 14, 14);
  fillStyled(pen, styleAt(style), 0, 0, 14, 14);
  pen.strokeStyle = css("text");
  pen.lineWidth = 1;
  pen.strokeRect(0.5, 0.5, 13, 13);
}

export function drawList(canvas, run, lengths) {
  const [list, fresh] = lengths;
  const width = 60, height = 10, pen = penOf(canvas, width, height), at = frames => frames / run.high * (width - 2);
  pen.fillStyle = css("soft");
  pen.fillRect(0, 0, width, height);
  pen.fillStyle = css("lent");
  pen.fillRect(1, 1, at(list), height - 2);
  pen.fillStyle = css("text");
  for (let x = 0; x < at(fresh); x += 3) pen.fillRect(1 + at(list) + x, 1, 1.5, height - 2);
  pen.strokeStyle = css("line");
  pen.lineWidth = 1;
  pen.strokeRect(0.5, 0.5, width - 1, height - 1);
}
