// In a Worker: reads and runs the log that it is sent, says how far it is, and sends the run in parcels

import { load } from "./load.js";
import { memoryOfParcel, parcelsOf } from "./parcels.js";

const scope = /** @type {any} */ (globalThis);
/** The log of what was sent: a text, a file, or a block of the page with name and text. */
export async function logOf({ name, text, file, block }) {
  if (block) return JSON.parse(block);
  return { name, text: text ?? new TextDecoder("latin1").decode(await file.arrayBuffer()) };
}
async function work(sent) {
  const { name, text } = await logOf(sent), loading = load(text);
  let step, since = performance.now();
  while (!(step = loading.next()).done) {
    if (performance.now() - since < 100) continue;
    scope.postMessage({ share: step.value });
    since = performance.now();
  }
  for (const parcel of parcelsOf({ ...step.value, name, log: text })) scope.postMessage(parcel, memoryOfParcel(parcel));
}
if (scope.WorkerGlobalScope) scope.onmessage = ({ data }) => work(data);
