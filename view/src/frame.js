// The frame that is picked, with its history

import { more } from "./cpus.js";
import { frameWords, historyOf, rankWords, whyWords } from "./frames.js";
import { jump, litNow } from "./go.js";
import { fill } from "./groups.js";
import { drawFrames } from "./map.js";
import { byId, keepFocus, make, page } from "./page.js";
import { css, penOf } from "./paint.js";
import { outline } from "./zone.js";

/** Scrolls to the entry of the history that is so now, if it is another one than before. */
function showEntry(entry) {
  const box = byId("frame"), now = byId("history").querySelector(".now");
  if (now && entry !== page.entry) box.scrollTop = now.offsetTop - box.clientHeight / 2;
  page.entry = entry;
}
export function drawFrame() {
  const run = page.run, frame = page.frame, lens = byId("lens");
  byId("frame-part").hidden = frame < 0;
  if (frame < 0) {
    byId("frame-said").textContent = byId("frame-why").textContent = "";
    byId("history").replaceChildren();
    lens.hidden = true;
    return;
  }
  const rank = rankWords(run, frame), why = whyWords(run, frame);
  fill(byId("frame-why"), why);
  byId("frame-said").textContent =
    `Frame ${frame}: ${[...frameWords(run, frame), ...(rank ? [rank] : [])].join(", ")}.`;
  const at = page.history.findLastIndex(([position]) => position <= run.position), isWhole = page.wholeOf === frame,
    first = isWhole ? 0 : Math.max(0, at - 30);
  const shown = page.history.slice(first, isWhole ? undefined : at + 60),
    behind = page.history.length - first - shown.length + page.history.rest;
  const open = () => {
    Object.assign(page, { wholeOf: frame,
      history: page.history.rest ? historyOf(run, frame, Infinity) : page.history });
    drawFrame();
  };
  keepFocus(byId("frame"), () => byId("history").replaceChildren(
    ...(first ? [make("li", {}, more(first, open, "before"))] : []), ...shown.map(([position, words], index) => {
    const item = make("li", {
      className: first + index === at ? "now" : ""
    }, make("button", { textContent: `line ${run.lineNumbers.at(position)}`, onclick: () => jump(position) }), words);
    if (first + index === at) item.setAttribute("aria-current", "step");
    return item;
  }), ...(behind ? [make("li", {}, more(behind, open))] : [])));
  showEntry(`${frame} ${at}`);
  lens.hidden = !page.layout || page.layout.wide >= 12;
  if (!lens.hidden) {
    const pen = penOf(lens, 256, 256), start = frame & ~255,
      layout = { first: start, count: Math.min(256, run.frames - start),
      columns: 16, rows: 16, wide: 16, high: 16, left: 0, top: 0, tiles: 0, isSmall: false };
    drawFrames(pen, run, layout, litNow());
    outline(pen, layout, frame, frame, css("accent"));
  }
}
