"use strict";
// A pause, replayed from the lines of `g1heap explain` on a heap from the lines of `g1heap print`.

// The heap, as far as its regions are drawn: all of a small one, and of a large one those that the pause collects or fills.

function reference(word) {
  return word === "-" ? null : Number(word);
}

function readHeap(lines) {
  const heap = { roots: new Map(), log: [], regions: new Map(), current: "none" };
  for (const line of lines) {
    const w = line.split(" ");
    if (w[0] === "heap") {
      [heap.w, heap.k, heap.n, heap.rootCount] = [w[1], w[2], w[3], w[5]].map(Number);
      heap.current = w[9];
    } else if (w[0] === "root") {
      heap.roots.set(Number(w[1]), reference(w[2]));
    } else if (w[0] === "dirty") {
      heap.log = w.slice(2).map(Number);
    } else if (w[0] === "region") {
      heap.regions.set(Number(w[1]), { kind: w[2], top: Number(w[4]), pinned: w[9] === "pinned", remembered: [], words: new Array(heap.w).fill(null) });
    } else if (w[0] === "remembered") {
      heap.regions.get(Number(w[1])).remembered = w.slice(3).map(Number);
    }
  }
  for (const line of lines) if (line.startsWith("object ")) readObject(heap, line.split(" "));
  return heap;
}

function regionOf(heap, at) {
  return Math.floor(at / heap.w);
}

// The word there: null if it is free, undefined if its region is not drawn.
function wordAt(heap, at) {
  const region = heap.regions.get(regionOf(heap, at));
  return region && region.words[at % heap.w];
}

// An object of several regions has its words in each of them, so all regions are read first.
function setWord(heap, at, word) {
  const region = heap.regions.get(regionOf(heap, at));
  if (region) region.words[at % heap.w] = word;
}

function readObject(heap, w) {
  const at = Number(w[1]);
  const [size, refs] = w[2].split("/").map(Number);
  setWord(heap, at, { kind: "header", at, size, refs });
  for (let i = 1; i < size; i++) {
    setWord(heap, at + i, i <= refs ? { kind: "slot", at, target: reference(w[2 + i]) } : { kind: "data", at, value: w[2 + i] });
  }
}

// A heap shares its regions with the one that it was copied from, except those that were changed since.
function copyOf(heap) {
  return { ...heap, roots: new Map(heap.roots), regions: new Map(heap.regions) };
}

// A region that may be changed, or undefined if it is not drawn.
function changing(heap, r) {
  const old = heap.regions.get(r);
  if (!old) return undefined;
  const region = { ...old, remembered: old.remembered.slice(), words: old.words.slice() };
  heap.regions.set(r, region);
  return region;
}

// The lines of `g1heap print` for a heap, for tests.
function printHeap(heap) {
  const named = (address) => (address === null ? "-" : String(address));
  const lines = [`heap ${heap.w} ${heap.k} ${heap.n} roots ${heap.rootCount} dirty ${heap.log.length} current ${heap.current}`];
  for (const [number, root] of heap.roots) lines.push(`root ${number} ${named(root)}`);
  if (heap.log.length) lines.push(["dirty cards", ...heap.log].join(" "));
  for (const [r, region] of heap.regions) {
    const objects = region.words.slice(0, region.top).filter((word) => word && word.kind === "header");
    const pinned = region.pinned ? " pinned" : "";
    lines.push(`region ${r} ${region.kind} top ${region.top} objects ${objects.length} cards ${region.remembered.length}${pinned}`);
    if (region.remembered.length) lines.push([`remembered ${r} cards`, ...region.remembered].join(" "));
    for (const object of objects) {
      const rest = Array.from({ length: object.size - 1 }, (_, i) => wordAt(heap, object.at + 1 + i));
      lines.push([`object ${object.at} ${object.size}/${object.refs}`,
        ...rest.map((word) => (word.kind === "slot" ? named(word.target) : word.value))].join(" "));
    }
  }
  return lines;
}

// The steps. Each line changes the heap as docs/EXPLAIN.md says.

function rising(cards) {
  return cards.slice().sort((a, b) => a - b);
}

function copyObject(heap, from, to, moved) {
  const object = wordAt(heap, from), region = changing(heap, regionOf(heap, to));
  if (!object || !region) return;
  for (let i = 0; i < object.size; i++) {
    const word = { ...wordAt(heap, from + i), at: to };
    if (word.kind === "slot" && moved.has(word.target)) word.target = moved.get(word.target);
    region.words[(to + i) % heap.w] = word;
  }
}

function gainOrLose(heap, r, verb, cards) {
  const region = changing(heap, r);
  if (!region) return;
  region.remembered = verb === "gains"
    ? rising([...new Set([...region.remembered, ...cards])])
    : region.remembered.filter((card) => !cards.includes(card));
}

function changeRegion(heap, w) {
  const region = changing(heap, Number(w[1]));
  if (!region) return;
  if (w[2] === "free") {
    region.words.fill(null);
    region.pinned = false;
  }
  region.kind = w[2];
  region.top = Number(w[4]);
}

function changeSlot(heap, at, target) {
  const region = changing(heap, regionOf(heap, at));
  if (region) region.words[at % heap.w] = { ...region.words[at % heap.w], target };
}

function apply(heap, line, moved) {
  const w = line.split(" ");
  const number = Number(w[1]);
  if (w[0] === "dirty") {
    for (const r of w.slice(3).filter((word) => word !== "-")) gainOrLose(heap, Number(r), "gains", [number]);
  } else if (w[0] === "place") {
    copyObject(heap, number, Number(w[3]), moved);
  } else if (w[0] === "root") {
    heap.roots.set(number, Number(w[5]));
  } else if (w[0] === "slot") {
    changeSlot(heap, number, Number(w[5]));
  } else if (w[0] === "remembered") {
    gainOrLose(heap, number, w[2], w.slice(3).map(Number));
  } else if (w[0] === "region") {
    changeRegion(heap, w);
  } else if (line === "log empty") {
    heap.log = [];
  } else if (line === "current none") {
    heap.current = "none";
  }
}

// The heap behind each number of lines. One of 64 is kept, and those between are replayed.
class Replay {
  constructor(before, lines) {
    this.lines = lines;
    this.moved = new Map(lines.map((line) => line.split(" ")).filter((w) => w[0] === "place").map((w) => [Number(w[1]), Number(w[3])]));
    this.kept = [before];
    this.last = { step: 0, heap: before };
    for (let step = 64; step <= lines.length; step += 64) this.kept.push(this.replayed(this.kept[this.kept.length - 1], step - 64, step));
  }

  replayed(heap, from, to) {
    const copy = copyOf(heap);
    for (const line of this.lines.slice(from, to)) apply(copy, line, this.moved);
    return copy;
  }

  at(step) {
    const near = Math.floor(step / 64), { step: last, heap } = this.last;
    const from = last <= step && last >= near * 64 ? [heap, last] : [this.kept[near], near * 64];
    this.last = { step, heap: this.replayed(...from, step) };
    return this.last.heap;
  }
}

// What a line looks at.

function finderOf(w, from) {
  if (w[from] === "root") return { roots: [Number(w[from + 1])] };
  if (w[from] === "card") return { cards: [Number(w[from + 1])], words: [Number(w[from + 3])] };
  return { words: [Number(w[from + 1]) + 1 + Number(w[from + 3])] };
}

function objectWords(heap, at) {
  const object = wordAt(heap, at);
  return object && object.kind === "header" ? Array.from({ length: object.size }, (_, i) => at + i) : [at];
}

function numbersFrom(w, from) {
  return w.slice(from).filter((word) => /^\d+$/.test(word)).map(Number);
}

// Of several frames that of the word `main`, or of the region `mainRegion`, has to be in sight.
function lookedAt(heap, line) {
  const w = line.split(" ");
  const number = Number(w[1]);
  switch (w[0]) {
    case "dirty": return { cards: [number], regions: numbersFrom(w, 3) };
    case "live": case "excluded": case "candidate": return { regions: [number] };
    case "set": return { regions: numbersFrom(w, 1) };
    case "card": return { cards: [number], words: numbersFrom(w, 3), arrowsFrom: numbersFrom(w, 3) };
    case "survivor": {
      const finder = finderOf(w, 4);
      return { ...finder, words: [...(finder.words || []), ...objectWords(heap, number)], arrowsFrom: finder.words, arrowsOf: finder.roots, main: number };
    }
    case "place": return { words: [...objectWords(heap, number), ...objectWords(heap, Number(w[3]))], main: Number(w[3]) };
    case "gap": return { words: Array.from({ length: Number(w[5]) }, (_, i) => Number(w[3]) + i), gap: true };
    case "root": return { roots: [number], arrowsOf: [number] };
    case "slot": return { words: [number], arrowsFrom: [number] };
    case "humongous": return w[2] === "kept" ? { ...finderOf(w, 4), regions: [regionOf(heap, number)] } : { regions: numbersFrom(w, 3) };
    case "remembered": return { regions: [number], cards: numbersFrom(w, 3), mainRegion: number };
    case "region": return { regions: [number] };
    default: return {};
  }
}

// What a line means, in a sentence.

function finderText(w, from) {
  if (w[from] === "root") return `root ${w[from + 1]}`;
  if (w[from] === "card") return `the slot at ${w[from + 3]}, on card ${w[from + 1]},`;
  return `slot ${w[from + 3]} of the object at ${w[from + 1]}`;
}

// A number with its noun, and a list with its noun.
function counted(number, noun) {
  return `${number} ${noun}${Number(number) === 1 ? "" : "s"}`;
}

function listedAs(noun, numbers) {
  return `${noun}${numbers.length === 1 ? "" : "s"} ${numbers.join(", ")}`;
}

const MEANINGS = {
  heap: () => "The heap before the pause.",
  covered: () => "Every reference into another region is on a card that the region remembers, or on a dirty card.",
  dirty: (w) => (w[3] === "-" ? `Card ${w[1]} is dirty. No region gains it.` : `Card ${w[1]} is dirty. ${w.length === 4 ? "The remembered set" : "The remembered sets"} of ${listedAs("region", w.slice(3))} ${w.length === 4 ? "gains" : "gain"} it.`),
  budget: (w) => `The budget is ${w[1]}; a pause of no regions costs ${w[3]}.`,
  live: (w) => `Region ${w[1]} has ${w[2]} live bytes and ${w[4]} bytes of garbage, and remembers ${counted(w[6], "card")}.`,
  excluded: (w) => `Region ${w[1]} is no candidate: ${w[2]}.`,
  candidate: (w) => `Region ${w[1]} costs ${w[5]} and frees ${w[3]} bytes of garbage. With all candidates above it the pause costs ${w[7]}: ${w[8] === "taken" ? "it is taken" : "it is left"}.`,
  set: (w) => (w[1] === "-" ? "The pause collects no region." : `The pause collects ${listedAs("region", w.slice(1))}.`),
  card: (w) => (w[3] === "-" ? `No slot on card ${w[1]} leads into the set.` : `Card ${w[1]} is remembered: its ${listedAs("slot", w.slice(3))} ${w.length === 4 ? "leads" : "lead"} into the set.`),
  survivor: (w) => `The object at ${w[1]} survives: ${finderText(w, 4)} references it first.`,
  room: (w) => `The survivors need ${counted(w[2], "region")}; ${w[4]} ${w[4] === "1" ? "is" : "are"} free.`,
  place: (w) => `The object at ${w[1]} moves to ${w[3]}.`,
  gap: (w) => `The next survivor does not fit: ${counted(w[5], "word")} at the end of region ${w[1]} stay unused.`,
  root: (w) => `Root ${w[1]} references the new address, ${w[5]}.`,
  slot: (w) => `The slot at ${w[1]} references the new address, ${w[5]}.`,
  humongous: (w) => (w[2] === "kept" ? `The humongous object at ${w[1]} is kept: ${finderText(w, 4)} references it.` : `Nothing references the humongous object at ${w[1]}: its regions are freed.`),
  remembered: (w) => `The remembered set of region ${w[1]} ${w[2]} ${listedAs("card", w.slice(3))}.`,
  region: (w) => (w[2] === "free" ? `Region ${w[1]} is free.` : `Region ${w[1]} is ${w[2]} with top ${w[4]}.`),
  log: () => "The dirty log is empty.",
  current: () => "No region is the current one.",
  pause: (w) => `Done: ${counted(w[6], "object")} and ${counted(w[8], "byte")} copied, ${counted(w[10], "card")} looked at, ${counted(w[12], "slot")} changed. Free regions: ${w[14]} before, ${w[15]} after.`,
  refused: () => "The pause is refused. The heap stays as it was.",
};

function meaningOf(line) {
  const w = line.split(" ");
  return MEANINGS[w[0]] ? MEANINGS[w[0]](w) : "";
}

// Drawing.

const SVG = "http://www.w3.org/2000/svg";
const CELL = 25, GAP = 18, LABEL = 34, FOOT = 20, CARDS = 26, ROOT_HIGH = 22, ABOVE_ROOTS = 40;
const FEW_ARROWS = 40; // more than so many are drawn only for a step, or for the object under the pointer

function make(parent, name, attributes, text) {
  const element = document.createElementNS(SVG, name);
  for (const [key, value] of Object.entries(attributes)) element.setAttribute(key, value);
  if (text !== undefined) element.textContent = text;
  parent.append(element);
  return element;
}

function titled(element, text) {
  make(element, "title", {}, text);
}

function rootText(number, target) {
  return `root ${number}: ${target === null ? "–" : target}`;
}

// Where everything is, for a width in pixels. A small region has a row for each card.
function layoutOf(heap, width) {
  const numbers = [...heap.regions.keys()], order = new Map(numbers.map((r, i) => [r, i]));
  const most = heap.w > 64 && width >= CARDS + 16 * CELL ? 16 : 8;
  const perRow = heap.w > 64 ? most : Math.min(heap.k, most);
  const rows = heap.w / perRow, cardHigh = Math.max(1, heap.k / perRow) * CELL;
  const boxWidth = CARDS + perRow * CELL, boxHeight = LABEL + rows * CELL + FOOT;
  const columns = Math.max(1, Math.min(numbers.length, Math.floor((width + GAP) / (boxWidth + GAP))));
  const roots = [...heap.roots.keys()], rootOrder = new Map(roots.map((number, i) => [number, i]));
  // Targets change by a pause, and a root's box has room for any.
  const longest = Math.max(0, ...roots.map((number) => rootText(number, heap.w * heap.n).length));
  const rootWidth = Math.max(74, 6.4 * longest + 18), rootsARow = Math.max(1, Math.floor(width / rootWidth));
  const head = ABOVE_ROOTS + Math.ceil(roots.length / rootsARow) * 30 + 14;
  const place = (r) => ({ x: (order.get(r) % columns) * (boxWidth + GAP), y: head + Math.floor(order.get(r) / columns) * (boxHeight + GAP) });
  const word = (at) => {
    const box = place(regionOf(heap, at)), offset = at % heap.w;
    return { x: box.x + CARDS + (offset % perRow) * CELL, y: box.y + LABEL + Math.floor(offset / perRow) * CELL };
  };
  const card = (number) => ({ ...word(number * heap.k), width: Math.min(heap.k, perRow) * CELL, height: cardHigh });
  const root = (number) => ({ x: (rootOrder.get(number) % rootsARow) * rootWidth, y: ABOVE_ROOTS + Math.floor(rootOrder.get(number) / rootsARow) * 30 });
  const height = head + Math.ceil(numbers.length / columns) * (boxHeight + GAP);
  return {
    numbers, perRow, rows, columns, boxWidth, boxHeight, place, word, card, root, rootWidth, height,
    width: Math.max(columns * (boxWidth + GAP) - GAP, Math.min(width, 320)), room: width,
  };
}

// Few regions are drawn larger, as far as there is room.
function scaledLayout(heap, width) {
  for (const scale of [1.7, 1.4, 1.2]) {
    const layout = layoutOf(heap, width / scale);
    if (layout.columns >= Math.min(heap.regions.size, 6)) return { scale, layout };
  }
  return { scale: 1, layout: layoutOf(heap, width) };
}

function wordText(word) {
  if (word.kind === "header") return `${word.size}/${word.refs}`;
  if (word.kind === "slot") return word.target === null ? "–" : String(word.target);
  return word.value.length > 4 ? `${word.value.slice(0, 3)}…` : word.value;
}

function wordTitle(at, word) {
  if (!word) return `word ${at}: free`;
  if (word.kind === "header") return `word ${at}: object ${word.at}, ${word.size} words, ${word.refs} slots`;
  if (word.kind === "slot") return `word ${at}: slot ${at - word.at - 1} of object ${word.at}, references ${word.target === null ? "nothing" : word.target}`;
  return `word ${at}: data of object ${word.at}, ${word.value}`;
}

// The numbers in so many characters, or as many as have room and a sign that there are more.
function fitting(numbers, most) {
  const all = numbers.join(" ");
  if (all.length <= most) return numbers.length ? all : "none";
  const long = ` and ${numbers.length} more`, isLong = most > 2 * long.length, room = Math.max(most - (isLong ? long.length : 2), 6);
  const kept = numbers.filter((_, i) => i < room && numbers.slice(0, i + 1).join(" ").length <= room);
  return kept.join(" ") + (isLong ? ` and ${numbers.length - kept.length} more` : " …");
}

// The heap as it is drawn. What a step does not change stays: the ground of a region with its figures, in two layers with
// the arrows between them.
class Drawing {
  constructor(heap, width) {
    const { scale, layout } = scaledLayout(heap, width);
    this.layout = layout;
    this.svg = document.createElementNS(SVG, "svg");
    this.svg.setAttribute("viewBox", `-8 -4 ${layout.width + 16} ${layout.height + 8}`);
    this.svg.style.maxWidth = `${(layout.width + 16) * scale}px`;
    this.svg.setAttribute("role", "img");
    drawMarkers(this.svg);
    [this.ground, this.arrows, this.near, this.figures, this.frames] = ["ground", "arrows", "near", "figures", "frames"].map((id) => make(this.svg, "g", { id }));
    this.regions = new Map();
    this.words = new Map(); // the ground and the figures of each word that is there
    this.svg.addEventListener("pointerover", (event) => {
      const cell = event.target.closest("[data-at]");
      this.showNear(cell ? Number(cell.dataset.at) : null);
    });
  }

  draw(heap, look, marks, label) {
    this.heap = heap;
    this.svg.setAttribute("aria-label", label);
    for (const r of this.layout.numbers) this.drawRegion(r, marks);
    for (const group of [this.arrows, this.near, this.frames]) group.replaceChildren();
    this.drawHead(look);
    this.drawArrows(look);
    this.drawFrames(look);
    this.drawBadges(marks.numbers);
  }

  drawRegion(r, marks) {
    const region = this.heap.regions.get(r), inSet = marks.set.has(r), gaps = (marks.gaps.get(r) || []).join(" ");
    const old = this.regions.get(r);
    if (old && old.region === region && old.inSet === inSet && old.gaps === gaps) return;
    if (old) for (const group of [old.ground, old.figures]) group.remove();
    const drawn = { region, inSet, gaps, ground: make(this.ground, "g", {}), figures: make(this.figures, "g", {}) };
    this.regions.set(r, drawn);
    const gap = new Set(marks.gaps.get(r));
    region.words.forEach((word, offset) => this.drawWord(drawn, r * this.heap.w + offset, word, gap));
    this.drawHeading(drawn, r);
    this.drawCards(drawn, r);
  }

  drawWord(drawn, at, word, gap) {
    const { x, y } = this.layout.word(at);
    const rect = make(drawn.ground, "rect", { class: `word ${word ? word.kind : gap.has(at) ? "gap" : "free"}`, x, y, width: CELL, height: CELL, ...(word ? { "data-at": at } : {}) });
    titled(rect, wordTitle(at, word));
    if (!word) return this.words.delete(at);
    const text = wordText(word), size = Math.min(11, (word.kind === "header" ? 34 : 37) / text.length).toFixed(1);
    const figures = make(drawn.figures, "text", { class: `in-${word.kind}`, x: x + CELL / 2, y: y + CELL / 2 + 4, "text-anchor": "middle", "font-size": size }, text);
    return this.words.set(at, [rect, figures]);
  }

  drawHeading(drawn, r) {
    const { x, y } = this.layout.place(r), { region, inSet } = drawn, bottom = this.layout.rows * CELL;
    make(drawn.figures, "text", { x, y: y + 13, "font-size": 13, class: "strong" }, `region ${r}${inSet ? " · set" : ""}`);
    const used = region.kind === "free" ? "" : `, top ${region.top}`, pinned = region.pinned ? ", pinned" : "";
    make(drawn.figures, "text", { x, y: y + 28, "font-size": 12, class: "quiet" }, `${region.kind}${used}${pinned}`);
    make(drawn.ground, "rect", { class: `region${inSet ? " set" : ""}`, x: x + CARDS - 1.5, y: y + LABEL - 1.5, width: this.layout.perRow * CELL + 3, height: bottom + 3 });
    if (!region.remembered.length) return;
    const text = `remembers ${fitting(region.remembered, Math.floor(this.layout.boxWidth / 6.2) - 10)}`;
    titled(make(drawn.figures, "text", { x, y: y + LABEL + bottom + 15, "font-size": 11 }, text), `region ${r} remembers cards ${region.remembered.join(" ")}`);
  }

  // The number of a card stands beside its row, or that of the first one of several.
  drawCards(drawn, r) {
    const { k, w } = this.heap, first = (r * w) / k;
    for (let card = first; card < first + w / k; card++) {
      const { x, y, width, height } = this.layout.card(card), left = this.layout.place(r).x + CARDS;
      make(drawn.ground, "rect", { class: "card", x, y, width, height });
      if (x === left) make(drawn.figures, "text", { x: left - 4, y: y + Math.min(height, 4 * CELL) / 2 + 3, "font-size": 9, "text-anchor": "end", class: "quiet" }, String(card));
    }
  }

  drawHead(look) {
    const most = Math.floor(this.layout.width / 7.2);
    make(this.frames, "text", { x: 0, y: 14, "font-size": 13, class: "quiet" }, `current region: ${this.heap.current}`);
    titled(make(this.frames, "text", { x: 0, y: 30, "font-size": 13, class: "quiet" }, `dirty cards: ${fitting(this.heap.log, most - 13)}`), this.heap.log.join(" "));
    for (const [number, target] of this.heap.roots) {
      const { x, y } = this.layout.root(number), width = this.layout.rootWidth - 8;
      make(this.arrows, "rect", { class: "root", x: x + 1, y, width, height: ROOT_HIGH, rx: 4 });
      make(this.frames, "text", { class: "in-slot", x: x + 1 + width / 2, y: y + 15, "font-size": 11, "text-anchor": "middle" }, rootText(number, target));
      if ((look.roots || []).includes(number)) make(this.frames, "rect", { class: "lit-box", x, y: y - 1, width: width + 2, height: ROOT_HIGH + 2, rx: 4 });
    }
  }

  // Each reference between what is drawn: where its arrow begins, its target, and the address of its slot or its root.
  references() {
    const found = [], isDrawn = (target) => target !== null && this.heap.regions.has(regionOf(this.heap, target));
    for (const [number, target] of this.heap.roots) {
      const { x, y } = this.layout.root(number);
      if (isDrawn(target)) found.push({ x: x + this.layout.rootWidth / 2 - 4, y: y + ROOT_HIGH - 2, target, root: number });
    }
    for (const [r, region] of this.heap.regions) {
      region.words.forEach((word, offset) => {
        if (!word || word.kind !== "slot" || !isDrawn(word.target)) return;
        const { x, y } = this.layout.word(r * this.heap.w + offset);
        found.push({ x: x + CELL / 2, y: y + CELL - 2, target: word.target, slot: r * this.heap.w + offset, holder: word.at });
      });
    }
    return found;
  }

  drawArrows(look) {
    this.all = this.references();
    const isLit = (one) => (one.slot === undefined ? (look.arrowsOf || []).includes(one.root) : (look.arrowsFrom || []).includes(one.slot));
    if (this.all.length <= FEW_ARROWS) for (const one of this.all) if (!isLit(one)) this.drawArrow(this.arrows, one, "");
    for (const one of this.all) if (isLit(one)) this.drawArrow(this.arrows, one, "lit");
  }

  // The references of the object under the pointer, and those to it.
  showNear(at) {
    this.near.replaceChildren();
    const word = at === null || !this.all ? null : wordAt(this.heap, at);
    if (!word) return;
    for (const one of this.all) if (one.holder === word.at || one.target === word.at) this.drawArrow(this.near, one, "near");
  }

  // It ends at the edge of the header that it leads to.
  drawArrow(group, { x, y, target }, name) {
    const to = this.layout.word(target), goal = { x: to.x + CELL / 2, y: to.y + CELL / 2 };
    const dx = goal.x - x, dy = goal.y - y, length = Math.hypot(dx, dy) || 1, bend = Math.min(40, length / 4);
    const mid = { x: (x + goal.x) / 2 - (dy / length) * bend, y: (y + goal.y) / 2 + (dx / length) * bend };
    const back = { x: mid.x - goal.x, y: mid.y - goal.y }, cut = (CELL / 2 + 1) / (Math.max(Math.abs(back.x), Math.abs(back.y)) || 1);
    const end = { x: goal.x + back.x * cut, y: goal.y + back.y * cut };
    make(group, "circle", { class: `arrow-start ${name}`, cx: x, cy: y, r: name ? 2.5 : 1.8 });
    make(group, "path", { class: `arrow ${name}`, d: `M${x} ${y}Q${mid.x} ${mid.y} ${end.x} ${end.y}`, "marker-end": `url(#tip${name === "lit" ? "-lit" : ""})` });
  }

  drawFrames(look) {
    const frame = (name, box, rx) => make(this.frames, "rect", { class: `lit-box ${name}`, ...box, rx });
    for (const card of look.cards || []) {
      if (!this.heap.regions.has(regionOf(this.heap, card * this.heap.k))) continue;
      const { x, y, width, height } = this.layout.card(card);
      frame("", { x: x - 2, y: y - 2, width: width + 4, height: height + 4 }, 3);
    }
    for (const at of look.words || []) {
      if (wordAt(this.heap, at) === undefined) continue;
      const { x, y } = this.layout.word(at);
      frame(at === look.main ? "main" : "", { x: x + 1.5, y: y + 1.5, width: CELL - 3, height: CELL - 3 }, 0);
    }
    for (const r of look.regions || []) {
      if (!this.heap.regions.has(r)) continue;
      const { x, y } = this.layout.place(r);
      frame(r === look.mainRegion ? "main" : "", { x: x - 5, y: y - 3, width: this.layout.boxWidth + 10, height: this.layout.boxHeight + 4 }, 6);
    }
  }

  // Survivors have their numbers, at the corner of their headers, while they are in their old places.
  drawBadges(numbers) {
    for (const [at, number] of numbers) {
      const word = wordAt(this.heap, at);
      if (!word || word.kind !== "header") continue;
      const { x, y } = this.layout.word(at), wide = String(number).length > 2 ? 4 * String(number).length : 7.5;
      make(this.frames, "rect", { class: "badge", x: x + 2 - wide, y: y - 5.5, width: 2 * wide, height: 15, rx: 7.5 });
      make(this.frames, "text", { class: "in-badge", x: x + 2, y: y + 5, "font-size": 9, "text-anchor": "middle" }, String(number));
    }
  }
}

function drawMarkers(svg) {
  const defs = make(svg, "defs", {});
  for (const [id, colour] of [["tip", "var(--arrow)"], ["tip-lit", "var(--lit)"]]) {
    const marker = make(defs, "marker", { id, viewBox: "0 0 10 10", refX: 9, refY: 5, markerWidth: 8, markerHeight: 8, markerUnits: "userSpaceOnUse", orient: "auto" });
    make(marker, "path", { d: "M0 0L10 5L0 10z", style: `fill:${colour}` });
  }
}

// The page.

const data = JSON.parse(document.getElementById("data").textContent);
const lines = data.explain, parsed = lines.map((line) => line.split(" "));
const before = readHeap(data.print);
const replay = new Replay(before, lines);
const listed = document.getElementById("list");
let step = 0, drawing = null, waiting = false;

// What the lines up to a step have said of the pause.
function marksAt(to) {
  const marks = { set: new Set(), gaps: new Map(), numbers: new Map() };
  for (const w of parsed.slice(0, to)) {
    if (w[0] === "set") for (const r of numbersFrom(w, 1)) marks.set.add(r);
    if (w[0] === "candidate" && w[8] === "taken") marks.set.add(Number(w[1]));
    if (w[0] === "survivor") marks.numbers.set(Number(w[1]), marks.numbers.size + 1);
    if (w[0] === "gap") marks.gaps.set(Number(w[1]), Array.from({ length: Number(w[5]) }, (_, i) => Number(w[3]) + i));
    if (w[0] === "region" && w[2] === "free") marks.set.delete(Number(w[1]));
  }
  return marks;
}

function draw() {
  const heap = replay.at(step), look = step ? lookedAt(heap, lines[step - 1]) : {};
  drawing.draw(heap, look, marksAt(step), `The heap at step ${step} of ${lines.length}`);
}

function width() {
  return document.getElementById("heap").clientWidth - 16;
}

function drawAnew() {
  drawing = new Drawing(before, width());
  draw();
  document.getElementById("heap").replaceChildren(drawing.svg);
}

const still = window.matchMedia("(prefers-reduced-motion: reduce)");

// Lets a copy come from its old place.
function moveCopy() {
  const w = parsed[step - 1], heap = replay.at(step);
  if (w[0] !== "place" || still.matches) return;
  const [from, to] = [Number(w[1]), Number(w[3])];
  for (let i = 0; i < wordAt(heap, to).size; i++) {
    const old = drawing.layout.word(from + i), now = drawing.layout.word(to + i);
    for (const part of drawing.words.get(to + i)) {
      part.animate([{ transform: `translate(${old.x - now.x}px, ${old.y - now.y}px)` }, { transform: "none" }], { duration: 700, easing: "ease-in-out" });
    }
  }
}

// Scrolls to what the step looks at, if it is not in sight below the bar.
function scrollToStep() {
  const box = document.querySelector("#frames .main") || document.querySelector("#frames .lit-box");
  const over = document.getElementById("bar").getBoundingClientRect().bottom;
  document.documentElement.style.setProperty("--bar-high", `${document.getElementById("bar").offsetHeight}px`);
  if (!box) return;
  const { top, bottom } = box.getBoundingClientRect(), least = over + 40, most = window.innerHeight - 20;
  if (top >= least && bottom <= Math.max(most, least + 1)) return;
  const middle = bottom - top > most - least ? least : (least + most - (bottom - top)) / 2;
  window.scrollBy({ top: top - middle, behavior: still.matches ? "auto" : "smooth" });
}

// The words of a step at once, and its picture with the next frame of the screen if steps come faster than these.
function show(to, isHurried) {
  const isForward = to === step + 1;
  step = Math.max(0, Math.min(lines.length, to));
  const line = step ? lines[step - 1] : "the heap before";
  document.getElementById("line").textContent = line;
  document.getElementById("meaning").textContent = step ? meaningOf(line) : "Step forward by the button or the right arrow key.";
  document.getElementById("count").textContent = `step ${step} of ${lines.length}`;
  document.getElementById("where").value = step;
  const ends = [[["first", "back"], step === 0], [["next", "last"], step === lines.length]];
  for (const [ids, off] of ends) for (const id of ids) document.getElementById(id).setAttribute("aria-disabled", off);
  for (const item of listed.querySelectorAll("[aria-current]")) item.removeAttribute("aria-current");
  if (step) {
    listed.children[step - 1].setAttribute("aria-current", "step");
    listed.scrollTop = listed.children[step - 1].offsetTop - listed.offsetTop - listed.clientHeight / 2;
  }
  if (!isHurried) showPicture(isForward);
  else if (!waiting) {
    waiting = true;
    requestAnimationFrame(() => showPicture(false));
  }
}

function showPicture(isForward) {
  waiting = false;
  draw();
  scrollToStep();
  if (isForward && step) moveCopy();
}

function list() {
  listed.style.paddingLeft = `${String(lines.length).length * 0.65 + 1.4}em`;
  lines.forEach((line, i) => {
    const item = document.createElement("li");
    item.textContent = line;
    item.addEventListener("click", () => show(i + 1));
    listed.append(item);
  });
}

function listen() {
  const keys = { ArrowLeft: () => step - 1, ArrowRight: () => step + 1, Home: () => 0, End: () => lines.length };
  document.addEventListener("keydown", (event) => {
    if (event.ctrlKey || event.altKey || event.metaKey || !keys[event.key]) return;
    event.preventDefault();
    show(keys[event.key](), event.repeat);
  });
  const buttons = { first: () => 0, back: () => step - 1, next: () => step + 1, last: () => lines.length };
  for (const [id, to] of Object.entries(buttons)) document.getElementById(id).addEventListener("click", () => show(to()));
  const slider = document.getElementById("where");
  slider.max = lines.length;
  slider.addEventListener("input", () => show(Number(slider.value), true));
  let last = width();
  window.addEventListener("resize", () => {
    if (width() === last) return;
    last = width();
    drawAnew();
  });
}

function start() {
  list();
  document.getElementById("all").open = window.innerWidth >= 1000;
  const isWhole = before.regions.size === before.n, numbers = [...before.regions.keys()];
  if (!isWhole) document.querySelector("#all summary").textContent = "The lines on these regions";
  document.getElementById("legend").textContent = (isWhole ? "" : `Of ${before.n} regions those are drawn that the pause collects or fills: ${numbers.join(", ")}. `
    + "Roots and lines that concern none of them are left out. ")
    + "Each cell is a word. A filled cell with white or dark figures is a header: its words and slots. "
    + "A light cell is a slot, a grey one data. Figures at the left are cards. A number in a green mark is a survivor's place in the order. "
    + "A dashed frame marks the regions of the set; a thick frame marks what the step looks at. "
    + "Rest the pointer on an object to see its references and those to it.";
  drawAnew();
  listen();
  show(0);
}

start();
