// The beginning: buttons, the log inside the page

import { nextUnit } from "./amounts.js";
import { closeSecond, openSecond, swapRuns } from "./compare.js";
import { draw, otherTheme, setTheme } from "./draw.js";
import { currentEvent, eventRow } from "./events.js";
import { csvOf, download, eventTable, layOnPaper, save, savePicture, takeFromPaper, timeTable } from "./files.js";
import { go, goWay, pick, play, tell } from "./go.js";
import { drawGroups } from "./groups.js";
import {
  fingers, followHash, onKey, pinchZone, pointTime, pointZone, showTerms, touches, wheelTime, wheelZone
} from "./hands.js";
import { addRemarks, byId, openFiles, openLog, openSent, page } from "./page.js";
import { Rows, eventLines, find, lineRow, remarkRow, scriptLines, showRows, showScript } from "./script.js";
import { wireSplits } from "./split.js";
import { drawTimeline, hereShare, resizeTime, showTime, zoomTime } from "./time.js";
import { copyVerdict } from "./verdict.js";

const on = (id, act) => byId(id).addEventListener("click", act);
const whenOpen = act => () => page.run && act();
function wire() {
  page.lineRows = new Rows(byId("script"), at => page.rows[at] === page.run.position,
    at => page.rows[at] < 0 ? remarkRow(-page.rows[at]) : lineRow(page.rows[at]), scriptLines,
    () => page.rowOf[page.run.position]);
  page.eventRows = new Rows(byId("events"), at => page.shownAt[at] === page.run.position, eventRow, eventLines,
    currentEvent);
  wireFiles();
  wireSteps();
  wirePanels();
  wireZone();
  wireTime();
  wireGroups();
  wireSplits();
  document.addEventListener("keydown", onKey);
  window.addEventListener("popstate", () => followHash());
  window.addEventListener("beforeprint", layOnPaper);
  window.addEventListener("afterprint", takeFromPaper);
  const observer = new ResizeObserver(resized);
  for (const id of ["answer-box", "zone-box", "time-box", "script", "events", "groups-box"]) observer.observe(byId(id));
  measure();
}
/** What opens and gives files. */
function wireFiles() {
  on("open", () => byId("file").click());
  on("show-example", showExample);
  on("compare", () => page.run ? byId("second").click() : tell("open a first log"));
  on("alone", closeSecond);
  on("swap", swapRuns);
  on("save", whenOpen(save));
  on("picture", whenOpen(savePicture));
  on("time-csv", whenOpen(() => download(".csv", "text/csv", csvOf(timeTable(page.run)))));
  on("events-csv", whenOpen(() => download("-events.csv", "text/csv", csvOf(eventTable(page.run)))));
  byId("second").addEventListener("change", event => {
    const [file] = event.target.files;
    if (file) openSecond({ name: file.name, file });
    event.target.value = "";
  });
  byId("file").addEventListener("change", event => {
    openFiles([...event.target.files]);
    event.target.value = "";
  });
  document.addEventListener("dragover", event => {
    event.preventDefault();
    document.body.classList.add("dropping");
  });
  document.addEventListener("dragleave", () => document.body.classList.remove("dropping"));
  document.addEventListener("drop", event => {
    event.preventDefault();
    document.body.classList.remove("dropping");
    openFiles([...event.dataTransfer.files]);
  });
}
/** What leads from line to line. */
function wireSteps() {
  on("first", whenOpen(() => go(0)));
  on("back", whenOpen(() => go(page.run.position - 1)));
  on("next", whenOpen(() => go(page.run.position + 1)));
  on("last", whenOpen(() => go(page.run.lines)));
  on("play", play);
  on("difference", whenOpen(() => goWay("d", true)));
  byId("find").addEventListener("keydown", event => {
    if (event.key === "Enter") find(!event.shiftKey);
    if (event.key === "Escape") byId("script").focus();
  });
}
/** The verdict, the help, the events and what a line does. */
function wirePanels() {
  on("copy", whenOpen(copyVerdict));
  on("dismiss", () => byId("verdict-part").hidden = byId("answer-part").hidden = true);
  on("theme", otherTheme);
  on("help", showTerms);
  on("close", () => byId("terms").close());
  byId("kind").addEventListener("change", draw);
  byId("sought").addEventListener("input", draw);
  byId("line").addEventListener("scroll", () => {
    page.isLineScrolled = true;
  });
}
function wireZone() {
  byId("zone").addEventListener("pointerdown", event => {
    byId("zone").focus();
    pointZone(event);
  });
  byId("zone").addEventListener("wheel", wheelZone, { passive: false });
  for (const type of ["pointerdown", "pointermove"]) byId("zone").addEventListener(type, pinchZone);
  for (const type of ["pointerup", "pointercancel", "pointerleave"])
    byId("zone").addEventListener(type, event => touches.delete(event.pointerId));
  byId("frame-number").addEventListener("keydown", event => {
    const number = byId("frame-number").value.trim();
    if (event.key !== "Enter" || !page.run) return;
    if (/^\d{1,7}$/.test(number) && Number(number) < page.run.frames) {
      pick(Number(number));
      byId("zone").focus(); // so that the keys work again
    } else tell(`the zone has frames 0 to ${page.run.frames - 1}`);
  });
  on("unpick", whenOpen(() => pick(-1)));
}
function wireTime() {
  byId("time").addEventListener("pointerdown", event => {
    byId("time").setPointerCapture(event.pointerId);
    pointTime(event);
  });
  byId("time").addEventListener("pointermove", pointTime);
  for (const type of ["pointerup", "pointercancel", "pointerleave"]) byId("time").addEventListener(type, event => {
    fingers.delete(event.pointerId);
    if (type === "pointerleave" && page.run) {
      page.hover = null;
      drawTimeline();
    }
  });
  byId("time").addEventListener("wheel", wheelTime, { passive: false });
  byId("mode").addEventListener("change", () => {
    byId("time-part").classList.toggle("side", byId("mode").value === "side");
    if (page.run) drawTimeline();
  });
  on("closer", whenOpen(() => zoomTime(0.5, hereShare())));
  on("farther", whenOpen(() => zoomTime(2, hereShare())));
  on("whole", whenOpen(() => showTime(0, page.run.lines)));
}
function wireGroups() {
  byId("groups-box").addEventListener("scroll", () => {
    page.groupsTop = byId("groups-box").scrollTop;
    if (page.run) drawGroups();
  });
  byId("sort").addEventListener("change", draw);
  byId("sought-group").addEventListener("input", draw);
  on("unit", nextUnit);
  on("to-removed", () => {
    byId("removed").open = true;
    byId("removed").scrollIntoView({ block: "nearest" });
  });
}

/** Draws anew what has another size. The script's height alone changes with the text of each line. */
function resized() {
  const before = page.drawnSizes, isOther = measure();
  if (!isOther || !page.run || page.isPreparing) return;
  if (before === page.drawnSizes) {
    showScript();
    return page.lineRows.draw();
  }
  const told = byId("told").textContent; // which drawing takes away
  resizeTime();
  showRows();
  draw();
  byId("told").textContent = told;
}
/** The sizes of what is drawn on, which are asked for when they change. Returns whether they did. */
export function measure() {
  const size = id => [byId(id).clientWidth, byId(id).clientHeight];
  page.answerSize = size("answer-box");
  page.zoneSize = size("zone-box");
  page.timeSize = size("time-box");
  page.groupsHeight = byId("groups-box").clientHeight;
  page.lineRows.measure();
  page.eventRows.measure();
  page.drawnSizes = [page.answerSize, page.zoneSize, page.timeSize, page.eventRows.height, page.eventRows.inside,
    page.lineRows.inside].join();
  const sizes = `${page.drawnSizes},${page.lineRows.height}`, isOther = sizes !== page.sizes;
  page.sizes = sizes;
  return isOther;
}

/** What a block of the page has inside. */
function held(id) {
  const text = byId(id).textContent;
  return text.trim() ? JSON.parse(text) : null;
}
async function showExample() {
  const { name, text, remarks } = held("example");
  await openLog(name, text);
  addRemarks(remarks);
}
async function start() {
  wire();
  setTheme(matchMedia("(prefers-color-scheme: dark)").matches ? "dark" : "light");
  const [inside, second] = ["log", "second-log"].map(id => byId(id).textContent.trim()), remarks = held("remarks"),
    hash = location.hash || (held("place") ?? ""); // the address is another one soon
  byId("welcome").hidden = inside !== "";
  document.body.classList.toggle("empty", inside === "");
  if (inside) {
    await openSent({ block: inside });
    if (page.run && remarks) addRemarks(remarks);
    followHash(hash);
    if (page.run && second) await openSecond({ block: second });
  } else followHash(hash);
}

start();
