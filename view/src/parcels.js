// A run goes from the Worker that made it to the page in parcels, none of which takes the page long

import { Numbers } from "./numbers.js";
import { Run } from "./run.js";

const MOST_PARCEL = 4000; // events or lives
/** The parcels of what was found of a log: of large arrays only their memory goes over. */
export function* parcelsOf({ run, verdict, log, name }) {
  if (!run) return yield { name, log, verdict };
  const { lives, events, removed, pinSlots, livesOf, births, log: _, ...rest } = run,
    fields = Object.fromEntries(Object.entries(rest).map(
    ([key, value]) => [key, value instanceof Numbers ? value.trimmed : value]));
  if (run.tight) fields.tight = { ...run.tight, life: run.tight.life?.index ?? -1 };
  yield { name, log, verdict, isMore: true };
  yield { fields, livesOf, removed: removed.map(({ index }) => index) };
  for (let at = 0; at < lives.length; at += MOST_PARCEL) yield { lives: lives.slice(at, at + MOST_PARCEL) };
  for (let at = 0; at < events.length; at += MOST_PARCEL)
    yield { events: events.slice(at, at + MOST_PARCEL).map(event => ({ ...event, life: event.life?.index ?? -1 })) };
  yield { isLast: true };
}
/** The arrays of numbers whose memory goes over with a parcel. */
export const memoryOfParcel = ({ fields = {} }) =>
  Object.values(fields).map(value => value?.items ?? value).filter(ArrayBuffer.isView).map(({ buffer }) => buffer);
/** Takes the parcels, and has what was found when the last one came. */
export class Unpacked {
  /** @type {any} */ run = null;
  /** @type {any} */ verdict = null;
  /** @type {number[]} */ removed = [];
  name = "";
  log = "";
  isWhole = false;
  take({ name, log, verdict, isMore, fields, livesOf, removed, lives = [], events = [], isLast }) {
    if (verdict) Object.assign(this, { name, log, verdict, isWhole: !isMore });
    if (fields) this.begin(fields, livesOf, removed);
    for (const life of lives) this.run.lives.push(life);
    for (const event of events) this.run.events.push({ ...event, life: this.run.lives[event.life] ?? null });
    if (isLast) this.end();
  }
  begin(fields, livesOf, removed) {
    const run = Object.assign(Object.create(Run.prototype), fields,
      { log: this.log, livesOf, lives: [], events: [], index: Run.next() });
    for (const value of Object.values(run)) if (value?.items && ArrayBuffer.isView(value.items))
      Object.setPrototypeOf(value, Numbers.prototype);
    Object.assign(this, { run, removed });
  }
  end() {
    const { run, removed } = this;
    run.removed = removed.map(index => run.lives[index]);
    if (run.tight) run.tight.life = run.lives[run.tight.life] ?? null;
    this.isWhole = true;
  }
}
