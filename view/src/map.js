// The map of the zone's frames

import { isPaleIn } from "./go.js";
import { css, fillStyled, inkOn, patternOf, rgb, sheets, styleAt, styleOf, styles } from "./paint.js";
import { HELD_BY_ZONE, IN_HAND } from "./run.js";
import { DIRTY, MARKED, UNIT, groupOf, isGroupList } from "./state.js";

const MOST_CELL = 116; // pixels

/**
 * How frames from `first` on are laid out. If each has 5 pixels or more, in rows: columns are a power of two. If not,
 * in
 * tiles of 1,024 frames, and in a tile along a Z: halves, quarters and so on. Either way a block or unit is one
 * rectangle.
 */
export function layoutOf(first, count, width, height, left, top) {
  let best = null;
  for (let columns = 1; columns <= 4096; columns *= 2) {
    const rows = Math.ceil(count / columns), high = Math.min(height / rows, MOST_CELL),
      wide = Math.min(width / columns, 4 * high, MOST_CELL);
    const score = Math.min(wide, high) * (columns > count && columns > 1 ? 0.5 : 1);
    if (!best || score > best.score + 1e-9) best = {
      columns,
      rows,
      wide,
      high: Math.min(high, 1.25 * wide),
      score
    };
  }
  if (best.score < 5) best = tilesOf(count, width, height);
  const { columns, rows, wide, high, tiles = 0 } = best;
  return {
    first,
    count,
    columns,
    rows,
    wide,
    high,
    tiles,
    left: left + (width - columns * wide) / 2,
    top: top + Math.max(0, (height - rows * high) / 2),
    isSmall: tiles > 0
  };
}
export const TILE = 32; // cells along a tile's side
function tilesOf(count, width, height) {
  const all = Math.ceil(count / TILE ** 2);
  let best = null;
  for (let tiles = 1; tiles <= all; tiles++) {
    const rows = Math.ceil(all / tiles), side = Math.min(width / tiles, height / rows) / TILE;
    if (!best || side > best.wide) best = {
      tiles,
      columns: tiles * TILE,
      rows: rows * TILE,
      wide: side,
      high: side
    };
  }
  return best;
}
// Where each frame of a tile is: every second bit of its number is the column, the others the row.
const Z_COLUMN = new Uint8Array(TILE ** 2), Z_ROW = new Uint8Array(TILE ** 2), Z_FRAME = new Uint16Array(TILE ** 2);
for (let frame = 0; frame < TILE ** 2; frame++) {
  for (let bit = 0; bit < 5; bit++) {
    Z_COLUMN[frame] |= (frame >> 2 * bit & 1) << bit;
    Z_ROW[frame] |= (frame >> 2 * bit + 1 & 1) << bit;
  }
  Z_FRAME[Z_ROW[frame] * TILE + Z_COLUMN[frame]] = frame;
}
/** The cell of a frame: its column and row. */
export function cellOf(layout, frame) {
  const at = frame - layout.first;
  if (!layout.isSmall) return [at % layout.columns, Math.floor(at / layout.columns)];
  const tile = at >> 10, inner = at & 1023;
  return [tile % layout.tiles * TILE + Z_COLUMN[inner], Math.floor(tile / layout.tiles) * TILE + Z_ROW[inner]];
}
/** The frame of a cell, -1 if there is none. */
export function frameOfCell(layout, column, row) {
  if (column < 0 || column >= layout.columns || row < 0 || row >= layout.rows) return -1;
  const at = layout.isSmall ? (Math.floor(row / TILE) * layout.tiles + Math.floor(column / TILE)) * 1024 +
    Z_FRAME[row % TILE *
    TILE + column % TILE] : row * layout.columns + column;
  return at < layout.count ? layout.first + at : -1;
}
/** How many columns and rows an aligned block has. */
function spanOf(layout, size) {
  const order = Math.log2(size);
  return layout.isSmall ? [2 ** Math.ceil(order / 2), 2 ** Math.floor(order / 2)] :
    [Math.min(size, layout.columns), Math.max(1,
    Math.ceil(size / layout.columns))];
}
/** The rectangle of a block that begins at an aligned frame, as far as it is in the layout. */
function rectOf(layout, frame, size) {
  const from = Math.max(frame, layout.first), [column, row] = cellOf(layout, from),
    [columns, rows] = spanOf(layout, Math.min(size, frame + size - from, layout.isSmall ? 1024 : layout.count));
  return [layout.left + column * layout.wide, layout.top + row * layout.high, columns * layout.wide,
    rows * layout.high];
}
/** The rectangles of any run of frames: those of its greatest aligned blocks. */
export function rectsOf(layout, first, last) {
  const rects = [], end = Math.min(last + 1, layout.first + layout.count), most = layout.isSmall ? 1024 : 2 ** 20;
  for (let frame = Math.max(first, layout.first); frame < end;) {
    let size = Math.min(frame & -frame || most, most);
    while (frame + size > end) size /= 2;
    rects.push(rectOf(layout, frame, size));
    frame += size;
  }
  return rects;
}
export const frameAt = (layout, x, y) => frameOfCell(layout, Math.floor((x - layout.left) / layout.wide),
  Math.floor((y - layout.top) /
  layout.high));

/** Draws the frames, and returns how many free blocks there are and how large the greatest is. */
export function drawFrames(pen, run, layout, lit) {
  const head = run.headOf(layout.first), dots = layout.isSmall ? smallDots(layout, lit) : null,
    free = { blocks: 0, greatest: 0 };
  run.walk(head < 0 ? layout.first : head, layout.first + layout.count, (first, size, place) => {
    if (!place) {
      free.blocks++;
      free.greatest = Math.max(free.greatest, size);
    }
    if (dots) dots.add(first, size, place);
    else drawBlock(pen, run, layout, lit, first, size, place);
  });
  if (dots) drawSmall(pen, run, layout, lit, dots);
  return free;
}

/** One block, unit or frame of a list, with its marks. */
export function drawBlock(pen, run, layout, lit, first, size, place) {
  const [x, y, width, height] = rectOf(layout, first, size), gap = layout.wide > 9 ? 1 : 0.5,
    label = layout.high >= 26 &&
    width >= 34;
  const list = run.list(first), kept = isGroupList(list), isFresh = list > 0 && !kept && list % 3 === 2,
    group = place >= UNIT ? groupOf(place) : -1, isPale = isPaleIn(lit, first, place), name = lit?.has?.get(first),
    isNumbered = layout.wide >= 24 && layout.high >= 26,
    middle = y + Math.max(Math.min(height, layout.high) / 2 + 4, isNumbered ? 24 : 0);
  if (!place) {
    pen.fillStyle = css("free");
    pen.fillRect(x, y, width, height);
    pen.strokeStyle = css("line");
    pen.lineWidth = 1;
    pen.strokeRect(x + 0.5, y + 0.5, width - 1, height - 1);
    if (width >= 60 && height >= 12)
      write(pen, `free, order ${Math.log2(size)}`, x + 4, middle, css("muted"), width - 8);
    else if (label) write(pen, "free", x + 4, middle, css("muted"), width - 8);
  } else if (place < UNIT) {
    pen.globalAlpha = isPale ? 0.3 : 1;
    pen.fillStyle = css("lent");
    pen.fillRect(x + gap, y + gap, width - 2 * gap, height - 2 * gap);
    pen.globalAlpha = 1;
    if (width >= 11 && height >= 10)
      write(pen, name ?? (label ? `CPU ${place}` : `${place}`), x + 3, middle, isPale ? css("text") : "#000000",
      width - 4);
  } else {
    fillStyled(pen, styleOf(group), x + gap, y + gap, width - 2 * gap, height - 2 * gap, isPale);
    if (isFresh) {
      pen.fillStyle = css("lent");
      pen.beginPath();
      pen.moveTo(x + gap, y + gap);
      pen.lineTo(x + width - gap, y + gap);
      pen.lineTo(x + gap, y + height - gap);
      pen.fill();
    }
    if (layout.wide > 14) {
      pen.strokeStyle = css("text");
      pen.globalAlpha = 0.4;
      pen.lineWidth = 1;
      pen.strokeRect(x + 0.5, y + 0.5, width - 1, height - 1);
      pen.globalAlpha = 1;
    }
    if (label && !isPale) plate(pen, name ?? run.path(group), x + 5, middle, styleOf(group).color, width - 10);
    drawMarks(pen, run, layout, first, x, y, width, height, kept, list);
  }
  if (isNumbered)
    for (let frame = first; frame < first + size && frame < first + 64; frame++) {
      const [fx, fy] = rectOf(layout, frame, 1);
      place >= UNIT ? plate(pen, `${frame}`, fx + 3, fy + 12, styleOf(group).color, layout.wide) :
        write(pen, `${frame}`, fx + 3,
        fy + 12, place && !isPale ? "#000000" : css("muted"), layout.wide);
    }
}

export function write(pen, text, x, y, color, room) {
  pen.font = "11px system-ui, 'DejaVu Sans', sans-serif";
  pen.fillStyle = color;
  while (text.length > 1 && pen.measureText(text).width > room) text = text.slice(0, -2) + "…";
  if (pen.measureText(text).width <= room) pen.fillText(text, x, y);
}
/** Text over a hatching, on a ground of its own. Of a path that is too long the last name stays. */
export function plate(pen, text, x, y, color, room) {
  pen.font = "11px system-ui, 'DejaVu Sans', sans-serif";
  if (pen.measureText(text).width > room) text = text.slice(Math.max(0, text.lastIndexOf("/")));
  while (text.length > 2 && pen.measureText(text).width > room) text = text.slice(0, -2) + "…";
  const width = pen.measureText(text).width;
  if (width > room) return;
  pen.fillStyle = color;
  pen.fillRect(x - 2, y - 10, width + 4, 13);
  pen.fillStyle = inkOn(color);
  pen.fillText(text, x, y);
}
/**
 * Marks by shape: dirty a corner, marked a ring, active a bar, pinned a dot, back a ring with a cross, released a
 * cross.
 */
function drawMarks(pen, run, layout, head, x, y, width, height, kept, list) {
  const flags = run.flags(head), unit = Math.min(layout.wide, layout.high),
    size = Math.max(3, Math.min(9, unit * 0.28)),
    pins = run.pinsOn(head);
  const two = draw => {
    pen.lineWidth = size / 2.2 + 2;
    pen.strokeStyle = "#ffffff";
    draw();
    pen.lineWidth = size / 2.6;
    pen.strokeStyle = "#000000";
    draw();
  };
  const thin = draw => {
    pen.lineWidth = 3.5;
    pen.strokeStyle = "#ffffff";
    draw();
    pen.lineWidth = 1.5;
    pen.strokeStyle = "#000000";
    draw();
  };
  if (flags & DIRTY) {
    pen.fillStyle = "#ffffff";
    corner(pen, x + width, y, size * 1.5 + 2);
    pen.fillStyle = "#000000";
    corner(pen, x + width, y, size * 1.5);
  }
  if (flags & MARKED) two(() => {
    pen.beginPath();
    pen.arc(x + size * 1.2 + 1, y + height - size * 1.5, size * 0.7, 0, 7);
    pen.stroke();
  });
  if (kept && list % 2 === 0) {
    pen.fillStyle = "#ffffff";
    pen.fillRect(x + 1, y + height - size * 0.6 - 2, width - 2, size * 0.6 + 1);
    pen.fillStyle = "#000000";
    pen.fillRect(x + 2, y + height - size * 0.6 - 1, width - 4, size * 0.6);
  }
  if (pins) {
    pen.fillStyle = "#ffffff";
    pen.strokeStyle = "#000000";
    pen.lineWidth = 2;
    pen.beginPath();
    pen.arc(x + width - size * 1.3, y + height - size * 1.3, size * 0.8, 0, 7);
    pen.fill();
    pen.stroke();
  }
  if (!kept && (list ? list % 3 === 0 : !(flags & (HELD_BY_ZONE | IN_HAND)))) thin(() => {
    pen.beginPath();
    pen.moveTo(x + 2, y + 2);
    pen.lineTo(x + width - 2, y + height - 2);
    pen.moveTo(x + width - 2, y + 2);
    pen.lineTo(x + 2, y + height - 2);
    pen.stroke();
  });
}

function corner(pen, x, y, size) {
  pen.beginPath();
  pen.moveTo(x, y);
  pen.lineTo(x - size, y);
  pen.lineTo(x, y + size);
  pen.fill();
}

/** Below 5 pixels a frame is a dot. Frames of one group that adjoin are an area. */
function smallDots(layout, lit) {
  const {
    columns,
    rows,
    count,
    first: from
  } = layout, image = new ImageData(columns, rows), dots = new Uint32Array(image.data.buffer), areas = [];
  const word = (color, alpha = 255) => {
    const [r, g, b] = rgb(color);
    return alpha * 2 ** 24 + b * 65536 + g * 256 + r;
  };
  const free = word(css("free")), [pale, full] = [90, 255].map(alpha => word(css("lent"), alpha)),
    [pales, fulls] = [55, 255].map(alpha => styles.map(style => word(styleAt(style).color, alpha)));
  let area = null;
  const add = (first, size, place) => {
    const group = place >= UNIT ? groupOf(place) : place ? -2 : -1, isPale = isPaleIn(lit, first, place);
    const tint = group >= 0 ? (isPale ? pales : fulls)[group] : place ? isPale ? pale : full : free;
    const [column, row] = cellOf(layout, Math.max(first, from)), [wide, high] = spanOf(layout, Math.min(size, count));
    for (let at = row; at < row + high; at++) dots.fill(tint, at * columns + column, at * columns + column + wide);
    if (area && area.group === group && place) area.last = first + size - 1;
    else {
      area = { group, first, last: first + size - 1 };
      areas.push(area);
    }
  };
  return { image, areas, add };
}
/** Areas have the group's hatching and an outline, and the greatest one of each group its path. */
function drawSmall(pen, run, layout, lit, {
  image,
  areas
}) {
  const sheet = sheets.small ??= document.createElement("canvas");
  sheet.width = layout.columns;
  sheet.height = layout.rows;
  sheet.getContext("2d").putImageData(image, 0, 0);
  pen.imageSmoothingEnabled = false;
  pen.drawImage(sheet, layout.left, layout.top, layout.columns * layout.wide, layout.rows * layout.high);
  drawAreas(pen, run, layout, lit, areas);
}

function drawAreas(pen, run, layout, lit, areas) {
  const dot = layout.wide * layout.high, greatest = new Map();
  for (const {
      group,
      first,
      last
    }
    of areas) {
    if ((last - first + 1) * dot < 40 || group === -2) continue;
    for (const [x, y, width, height] of rectsOf(layout, first, last)) {
      const isWide = width >= 5 && height >= 3;
      if (group < 0) {
        if (width >= 8 && height >= 8) {
          pen.strokeStyle = css("line");
          pen.lineWidth = 1;
          pen.strokeRect(x + 0.5, y + 0.5, width - 1, height - 1);
        }
        continue;
      }
      const pattern = patternOf(pen, styleOf(group)), isPale = isPaleIn(lit, first, UNIT + 16 * group);
      if (pattern && isWide && !isPale) {
        pen.fillStyle = pattern;
        pen.fillRect(x, y, width, height);
      }
      if (isWide) {
        pen.strokeStyle = css("text");
        pen.globalAlpha = 0.45;
        pen.lineWidth = 0.75;
        pen.strokeRect(x + 0.4, y + 0.4, width - 0.8, height - 0.8);
        pen.globalAlpha = 1;
      }
      if (!isPale && width * Math.min(height, 13) > (greatest.get(group)?.size ?? 0)) greatest.set(group, {
        size: width * Math.min(height, 13),
        x,
        y,
        width,
        height
      });
    }
  }
  for (const [group, {
      x,
      y,
      width,
      height
    }] of greatest)
    if (width >= 22 && height >= 4)
    plate(pen, run.path(group), x + 4, y + height / 2 + 4, styleOf(group).color, Math.max(width -
      8, 22));
}
