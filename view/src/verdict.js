// The verdict on the whole log, on opening: who was killed and what would have saved them, or the tightest moment

import { inPages, memoryText } from "./amounts.js";
import { MOST_CHOICES } from "./follower.js";
import { jump, tell } from "./go.js";
import { listOf, nameOf, paragraph } from "./line.js";
import { byId, make, page } from "./page.js";
import { REFUSED } from "./run.js";
import { grouped, listed, plural } from "./words.js";

export const MOST_VERDICTS = 5;
/** The least changes after which a group wouldn't have been killed there: each by what was so when it was chosen. */
export function waysToLive({ path, victim, max, usage, need, spared, its, dirty, pinned }, name) {
  const lacking = usage + need - max, ways = [`memory.max of ${path} at ${memoryText(usage + need)}`];
  if (lacking <= spared) ways.push(`memory.min of 0 below ${path}`);
  if (lacking <= its) ways.push(`${victim === name ? "its units" : `the units of ${victim}`} clean`);
  else if (lacking <= dirty) ways.push(`the units below ${path} clean`);
  else if (lacking <= pinned) ways.push(`the units below ${path} clean and without pins`);
  return ways;
}
function savedBy(choice, name) {
  const { full } = choice,
    others = full.length ? `; ${listed(full)} ${full.length === 1 ? "has" : "have"} no room for it either` : "";
  return `It would have lived there with ${waysToLive(choice, name).join(", or with ")}${others}.`;
}
/**
 * What became of a killed group, in a sentence, and what would have saved it; of one that died with a victim, which it
 * was.
 */
function killVerdict(run, event) {
  const { life, choice, note } = event,
    [, freed] = /^# killed \S+ returned \d+ bytes (\d+) /.exec(note ? run.textAt(note) : "") ?? [];
  const name = life ? nameOf(run, life) : "a group", amount = freed ? `: ${memoryText(inPages(freed))} freed` : "";
  if (life && choice?.victim && choice.victim !== life.path)
    return `${name} with ${choice.victim}, by memory.oom.group${amount}.`;
  const cause = choice ?
    `, for the limit of ${choice.path} (${memoryText(choice.max)}${choice.need ?
    `, no room for ${memoryText(choice.need)} more` : `, usage ${memoryText(choice.usage)}`})` : "";
  return `${name}${cause}${amount}. ${choice ? savedBy(choice, life?.path) : ""}`.trim();
}
/**
 * The verdict of a log without kills: the moment at which a limit had least room; without limits, at which least frames
 * were free.
 */
function tightVerdict(run) {
  const { tight, leastFree: [position, free] } = run;
  if (!tight)
    return [position, `least frames were free: ${grouped(free)} of ${grouped(run.frames)}. No group had a limit.`];
  const { life, max, usage, need, room } = tight, name = life ? nameOf(run, life) : "a group";
  return [tight.position,
    room < 0 ?
    need ? `the limit of ${name} had no room for ${memoryText(need)}: usage ${memoryText(usage)} of ${memoryText(
    max)}. ${run.marks.at(tight.position) & REFUSED ? "The command was refused." : "Reclaim made room."}` :
    `the limit of ${name}, ${memoryText(max)}, was below its usage of ${memoryText(usage)}.` :
    `${name} used ${memoryText(usage)} of the ${memoryText(max)} that its limit has.`];
}
/** The kills in the order in which they are told: of those that died together, the victim first. */
function killsTold(run) {
  const kills = run.events.filter(({ kind }) => kind === "kill"),
    isVictim = ({ life, choice }) => life && choice?.victim === life.path;
  return kills.sort((a, b) => a.position - b.position || Number(isVictim(b)) - Number(isVictim(a)));
}
/** The verdict: a headline, and its lines, each a position with words. */
export function verdictOf(run) {
  const kills = killsTold(run), lines = kills.map(event => [event.position, event]);
  if (!run.lines) return { head: "", lines: [] };
  if (!kills.length) return { head: "Nobody was killed. Tightest moment:", lines: [tightVerdict(run)] };
  return { head: `${plural(kills.length, "group")} ${kills.length === 1 ? "was" : "were"} killed.`, lines };
}
export const wordsOfVerdict = (run, what) => typeof what === "string" ? what : killVerdict(run, what);
export const placeName = (run, position) => position ? `Line ${run.lineNumbers.at(position)}` : "At boot";
/** The verdict as text, of so many lines. */
export function verdictText(run, most = MOST_CHOICES) {
  const { head, lines } = run.verdict ??= verdictOf(run), more = Math.max(0, lines.length - most);
  return [...(run.fault ? [faultText(run)] : []), head,
    ...lines.slice(0, most).map(([position, what]) => `${placeName(run, position)}: ${wordsOfVerdict(run, what)}`),
    ...(more ? [`And ${plural(more, "more kill")}.`] : [])].join(" ");
}
const faultText = run => `The log disagrees: ${run.fault.text}. Up to there:`;
/** The card above all: each kill has its line. */
export function drawVerdict() {
  const { run } = page, { head, lines } = run.verdict ??= verdictOf(run);
  byId("verdict-part").hidden = byId("answer-part").hidden = !head;
  const items = lines.map(([position, what]) => () => make("li", { "data-position": position },
    make("button", { textContent: placeName(run, position), onclick: () => jump(position) }),
    ` ${wordsOfVerdict(run, what)}`));
  byId("verdict").replaceChildren(...(run.fault ? [paragraph("note-oom", faultText(run))] : []),
    make("strong", { textContent: head }), listOf("", "ol", items, 20)[1]);
}
/** Marks the lines of the card that are of the line that is shown. */
export function markVerdict({ position }) {
  for (const item of byId("verdict").querySelectorAll("li")) {
    if (Number(item.dataset.position) === position) item.setAttribute("aria-current", "true");
    else item.removeAttribute("aria-current");
  }
}
/** The text of a bug report. */
const reportText = () =>
  [`${page.name}: ${byId("sizes").textContent}`, byId("badge").textContent, byId("warned").textContent,
  verdictText(page.run)].filter(Boolean).join("\n");
export async function copyVerdict() {
  const text = reportText(), area = make("textarea", { value: text });
  const copied = await navigator.clipboard?.writeText(text).then(() => true, () => false);
  if (!copied) {
    byId("verdict").append(area);
    area.select();
    document.execCommand("copy");
    area.remove();
  }
  tell("the verdict is copied");
}
