// Lists of numbers, and what is looked up in ascending ones

/** The last of these ascending numbers that isn't above this one; -1 if there is none. */
export function indexIn(numbers, number, valueOf = each => each) {
  let [low, high] = [-1, numbers.length - 1];
  while (low < high) {
    const middle = Math.ceil((low + high) / 2);
    if (valueOf(numbers[middle]) <= number) low = middle;
    else high = middle - 1;
  }
  return low;
}

// A curve is a list of an ascending position, the value from there on, the next position, its value, and so on.

export const countOf = curve => curve.length / 2;
export const startOf = (curve, at) => curve[2 * at];
export const valueOf = (curve, at) => curve[2 * at + 1];
/** The last place of a curve that isn't after a position; -1 if it begins later. */
export function indexAt(curve, position, part = 0) {
  let [low, high] = [-1, countOf(curve) - 1];
  while (low < high) {
    const middle = Math.ceil((low + high) / 2);
    if (curve[2 * middle + part] <= position) low = middle;
    else high = middle - 1;
  }
  return low;
}
/** The value that a curve has at a position. */
export const valueAt = (curve, position) => curve[2 * indexAt(curve, position) + 1] ?? 0;
/** A curve with these positions and values in place of its own. */
export const mapped = (curve, ofPlace, ofValue) => curve.map((each, at) => (at % 2 ? ofValue : ofPlace)(each));
/**
 * The greatest value of a curve from one position to another.
 * @param {any} curve @param {number[]} view
 */
export function mostIn(curve, view) {
  const [from, until] = view;
  const isWhole = from <= curve[0] && until >= curve.at(-2);
  if (isWhole && curve.most !== undefined) return curve.most;
  let most = valueAt(curve, from);
  for (let at = Math.max(0, indexAt(curve, from)); at < countOf(curve) && startOf(curve, at) <= until; at++)
    most = Math.max(most, valueOf(curve, at));
  if (isWhole) curve.most = most;
  return most;
}
/** Of a curve whose values ascend and are joined by lines: a value by its position, if `one` is 0, or the other way. */
export function between(curve, value, one) {
  const at = 2 * indexAt(curve, value, one),
    [here, its, next, other] = [at + one, at + 1 - one, at + 2 + one, at + 3 - one];
  if (at < 0) return curve[1 - one];
  if (next >= curve.length || value <= curve[one]) return value <= curve[one] ? curve[1 - one] : curve[its];
  return curve[its] + (value - curve[here]) / (curve[next] - curve[here]) * (curve[other] - curve[its]);
}
/** A list of numbers that grows. */
export class Numbers {
  constructor(Kind) {
    this.items = new Kind(1024);
    this.length = 0;
  }
  push(value) {
    if (this.length === this.items.length) {
      const larger = new this.items.constructor(2 * this.length);
      larger.set(this.items);
      this.items = larger;
    }
    this.items[this.length++] = value;
  }
  at(index) {
    return this.items[index];
  }
  /** The same, without the room to grow. */
  get trimmed() {
    return { items: this.items.slice(0, this.length), length: this.length };
  }
}
