// Drawing all panels, and the theme

import { nameAddress } from "./address.js";
import { drawAnswer } from "./answer.js";
import { drawRuns } from "./compare.js";
import { drawCpus, isAtEnd } from "./cpus.js";
import { drawEvents } from "./events.js";
import { drawFrame } from "./frame.js";
import { drawGroups } from "./groups.js";
import { drawLine } from "./line.js";
import { byId, page } from "./page.js";
import { styleGroups, useColors } from "./paint.js";
import { drawSums } from "./sums.js";
import { drawTimeline, resizeTime } from "./time.js";
import { markVerdict } from "./verdict.js";
import { grouped } from "./words.js";
import { drawLegend, drawZone } from "./zone.js";

export function draw() {
  const run = page.run;
  if (!run) return;
  styleGroups(run);
  drawEvents();
  page.lineRows.draw();
  page.eventRows.draw();
  drawLine();
  drawAnswer();
  markVerdict(run);
  drawZone();
  drawFrame();
  drawGroups();
  drawSums();
  drawRuns();
  drawCpus();
  if (!page.isPreparing) drawTimeline();
  byId("where").textContent = run.position ?
    `line ${run.lineNumbers.at(run.position)}: ${isAtEnd(run) ? "the end" :
    `${run.sizes ? "command" : "step"} ${grouped(run.position)} of ${grouped(commandCount(run))}`}` :
    `boot: ${grouped(commandCount(run))} ${run.sizes ? "commands" : "steps"} follow`;
  const ends = { first: 0, back: 0, next: run.lines, last: run.lines };
  for (const [id, end] of Object.entries(ends))
    byId(id).setAttribute("aria-disabled", String(run.position === end)); // one that is disabled would lose the focus
  byId("told").textContent = "";
  nameAddress();
}

/** How many positions are of commands, or steps: all but the end. */
export const commandCount = run => run.lines - (run.lines && run.said(run.lines).isEnd ? 1 : 0);
export function setTheme(theme) {
  document.documentElement.dataset.theme = theme;
  useColors(theme);
  byId("theme").textContent = theme === "dark" ? "Light" : "Dark";
  resizeTime();
  drawLegend();
  draw();
}
export const otherTheme = () => setTheme(document.documentElement.dataset.theme === "dark" ? "light" : "dark");
