// What a line changed, in sentences

import { amount, limitText, memoryText, unitName } from "./amounts.js";
import { placeWords, unitsText } from "./frames.js";
import {
  DIRTY, FIRST_GROUP_LIST, MARKED, MOST_CPUS, MOST_GROUPS, UNIT, groupList, groupOf, isGroupList, orderOf
} from "./state.js";
import { capital, framesText, listed, plural } from "./words.js";

/**
 * Stocks with pages that were drained without a line of the explanation: a CPU's own, as it gets pages of another
 * group, or that of a killed or removed group.
 */
function drainWords(run, line) {
  const groups = new Map(), said = [],
    told = new Set(line.notes.map(note => /^# stock (\d+) bytes [1-9]/.exec(note)?.[1]));
  for (let at = run.starts.at(run.position); at < run.starts.at(run.position + 1); at++) {
    const cpu = run.logCell.items[at] - run.STOCK_GROUP;
    if (cpu >= 0 && cpu <= MOST_CPUS && !groups.has(cpu)) groups.set(cpu, run.oldAt(at));
  }
  for (const step of line.steps) {
    const [, drained, pages] = /^0 drain (\d+) > pages (\d+)$/.exec(step) ?? [],
      [, filled, group] = /^0 fill (\d+) (\d+) /.exec(step) ?? [];
    if (filled) groups.set(Number(filled), Number(group));
    if (!Number(pages) || told.has(drained)) continue;
    const cpu = Number(drained),
      life = run.lives.findLast(({ number, from, until }) =>
      number === (groups.get(cpu) ?? run.cells[run.STOCK_GROUP + cpu]) && from <= run.position &&
      (until ?? Infinity) >= run.position);
    said.push(`${cpu === line.cpu ? `CPU ${cpu}'s own stock` :
      `The stock of CPU ${cpu}`} was drained: ${memoryText(Number(pages))} of ${life?.path ??
      "a removed group"} is no longer charged.`);
  }
  return said;
}
/** What the steps of this position changed. The state is that after it. */
export function changeWords(run, line) {
  const said = drainWords(run, line), path = group => run.path(group), usages = usageChanges(run),
    { flags, lists, pins, stocks, groups } = run.changes();
  if (usages.length)
    said.push(
    `Usage in ${unitName()}: ${usages.map(([group, old, now]) => `${path(group)} ${amount(old)} → ${amount(now)}`).join(
    ", ")}.`);
  for (const [group, rows] of groups) {
    if (!run.life(group)) continue;
    if (run.life(group).from === run.position) {
      if (run.position) said.push(`${path(group)} is new, and has no limit.`);
      continue;
    }
    const counts = ["low", "high", "max", "oom", "kill", "group_kill"].filter(event => rows.has(`${event}_events`)).map(
      event => `${event} ${rows.get(`${event}_events`)} → ${run.row(group, `${event}_events`)}`);
    if (rows.has("max"))
      said.push(`The limit of ${path(group)}: ${limitText(rows.get("max"))} → ${limitText(run.row(group, "max"))}.`);
    for (const [row, none] of [["high", "none"], ["low", "max"], ["min", "max"]])
      if (rows.has(row))
      said.push(`memory.${row} of ${path(group)}: ${limitText(rows.get(row), none)} → ${limitText(run.row(group, row),
      none)}.`);
    if (rows.has("oom_group"))
      said.push(`memory.oom.group of ${path(group)}: ${rows.get("oom_group")} → ${run.row(group, "oom_group")}.`);
    if (rows.has("killed") && run.row(group, "killed")) said.push(`${path(group)} is killed.`);
    if (counts.length) said.push(`Events of ${path(group)} and below: ${counts.join(", ")}.`);
  }
  for (const { first, last, place } of changedSpans(run))
    said.push(`${capital(framesText(first, last))}: ${placeWords(run, first, last, place)}.`);
  for (const head of flags) {
    const now = run.flags(head);
    if (run.isKept(head))
      said.push(`Frame ${head} is ${listed([...(now & DIRTY ? ["dirty"] : []), ...(now & MARKED ? ["marked"] : [])]) ||
      "neither dirty nor marked"}.`);
  }
  for (const pin of pins) {
    const [cpu, head] = run.pinNames[pin], count = run.get(run.PINS + pin);
    said.push(`CPU ${cpu} has ${count ? plural(count, "pin") : "no pin"} on frame ${head}.`);
  }
  const came = new Map();
  for (const [head, old] of lists) {
    const left = !run.list(head) && isGroupList(old) && run.cells[head] >= UNIT ? -old : run.list(head);
    came.set(left, [...(came.get(left) ?? []), head]);
  }
  for (const [list, heads] of came) {
    const is = heads.length === 1 ? "is" : "are", group = (Math.abs(list) - FIRST_GROUP_LIST) >> 1,
      name = Math.abs(list) === groupList(group, true) ? "active" : "inactive";
    if (list < 0) said.push(`${capital(unitsText(heads))} left the ${name} list of ${path(group)}.`);
    else if (isGroupList(list))
      said.push(`${capital(unitsText(heads))} ${is} newest on the ${name} list of ${path(group)}.`);
    else if (list && list % 3 === 0)
      said.push(`${capital(unitsText(heads))} wait${heads.length === 1 ? "s" : ""} at CPU ${list / 3} to be freed.`);
  }
  const empty = [...stocks].filter(cpu => run.cells[run.STOCK_PAGES + cpu] <= 0);
  for (const cpu of stocks) {
    const pages = run.cells[run.STOCK_PAGES + cpu];
    if (pages > 0)
      said.push(`The stock of CPU ${cpu} has ${memoryText(pages)} of prepaid pages of ${path(
      run.cells[run.STOCK_GROUP + cpu])}.`);
  }
  if (empty.length)
    said.push(empty.length === 1 ? `The stock of CPU ${empty[0]} is empty.` :
    `The stocks of CPUs ${listed(empty.map(String))} are empty.`);
  return said;
}
/** The frames whose place changed, in spans of one new place. */
export function changedSpans(run) {
  const spans = [];
  for (const [head, old] of [...run.changes().places].sort((a, b) => a[0] - b[0])) {
    const place = run.cells[head], before = spans.at(-1),
      last = head + 2 ** (place >= UNIT ? orderOf(place) : old >= UNIT ? orderOf(old) : 0) - 1;
    if (before && before.place === place && before.last + 1 === head) before.last = last;
    else if (!before || last > before.last) spans.push({ first: head, last, place });
  }
  return spans;
}
/** Whose usage the line changed: the group, and how much before and after, the root last. */
function usageChanges(run) {
  return [...run.changes().groups].filter(([group, rows]) => rows.has("current") && run.life(group))
    .map(([group, rows]) => [group, rows.get("current"), run.row(group, "current")])
    .filter(([, old, now]) => old !== now).sort(([a], [b]) => (a || MOST_GROUPS) - (b || MOST_GROUPS));
}
/** How many units were dirty before the line in the subtree that its first round of reclaim is for. */
export function dirtyBefore(run, notes) {
  const cause = notes.map(note => /^# (?:limit|high|asked|zone) (\S+)/.exec(note)).find(found => found),
    { position } = run;
  if (!cause) return 0;
  run.goto(position - 1);
  const top = run.groups().find(group => run.path(group) === cause[1]) ?? 0, below = new Set(run.subtree(top));
  let dirty = 0;
  run.walk(0, run.frames, (head, size, place) => {
    if (place >= UNIT && run.flags(head) & DIRTY && below.has(groupOf(place))) dirty++;
  });
  run.goto(position);
  return dirty;
}
