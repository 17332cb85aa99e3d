// An outbox: its verdict, the picture of the firing, its records, and files to save.
import { Library, STREAMS } from "./library.js";
import { endLine, payloadOf, recordLine, toDo } from "./lines.js";
import { SENTENCES } from "./sentences.js";
import { $, begin, beside, each, el, item, module, pages, payloadNode, plural, say, saveLink, shown } from "./show.js";

// Bars in a row of the picture, and rows on a screen of it: 2,000 records.
const ROW = matchMedia("(max-width: 30rem)").matches ? 100 : 200, ROWS = 2000 / ROW;
const CHUNK = 1 << 16;

// Place, stream and length of each record: two million of them fit.
class RecordList {
  count = 0;
  places = new Float64Array(1024);
  streams = new Uint8Array(1024);
  lengths = new Uint32Array(1024);
  sums = Object.fromEntries(Object.keys(STREAMS).map((stream) => [stream, { records: 0, bytes: 0 }]));
  add({ place, stream, length }) {
    if (this.count === this.places.length) for (const name of ["places", "streams", "lengths"]) this.grow(name);
    this.places[this.count] = place;
    this.streams[this.count] = stream;
    this.lengths[this.count++] = length;
    this.sums[stream].records++;
    this.sums[stream].bytes += length;
  }
  grow(name) {
    const grown = new this[name].constructor(2 * this[name].length);
    grown.set(this[name]);
    this[name] = grown;
  }
}

// ---- the picture
function svgNode(tag, attributes, ...children) {
  const node = document.createElementNS("http://www.w3.org/2000/svg", tag);
  for (const [name, value] of Object.entries(attributes)) node.setAttribute(name, value);
  node.append(...children);
  return node;
}
// Higher by the record's length to 40 bytes, then by its doublings: two words and a firmware segment both can be seen.
const rise = (length) => (length <= 40 ? 5 + 0.7 * length : 33 + 2 * Math.log2(length / 40)).toFixed(1);
function bars(list, from) {
  const paths = Object.fromEntries(Object.values(STREAMS).map((name) => [name, ""]));
  for (let i = from; i < Math.min(list.count, from + ROW); i++) {
    const name = STREAMS[list.streams[i]], [out, back] = name === "control" ? [9, -9] : [-rise(list.lengths[i]), rise(list.lengths[i])];
    paths[name] += `M${i - from + 0.12} 55v${out}h.76v${back}z`;
  }
  return Object.entries(paths).map(([name, d]) => svgNode("path", { d, fill: `var(--${name})` }));
}
function rowPicture(list, from) {
  const wide = Math.min(ROW, Math.max(50, list.count)), line = { stroke: "var(--rule)", "stroke-width": 1, "vector-effect": "non-scaling-stroke" };
  const lines = Array.from({ length: Math.floor(wide / 50) + 1 }, (_, i) => svgNode("path", { d: `M${50 * i} 0v66`, ...line }));
  return svgNode("svg", { viewBox: `0 0 ${wide} 66`, preserveAspectRatio: "none", "aria-hidden": "true" },
    ...lines, svgNode("path", { d: `M0 55h${wide}`, ...line }), ...bars(list, from));
}
// The picture above the list of records; pressing a row shows its records.
class Firing {
  rows = el("div", { class: "rows" });
  turn = el("div", { class: "row" });
  heading = el("h2", {}, "The records");
  screen = -1;
  constructor(list, line) {
    this.list = list;
    this.view = pages(list.count, ROW, line, (part) => this.moved(part));
  }
  moved(part) {
    if (Math.floor(part / ROWS) !== this.screen) this.draw(Math.floor(part / ROWS));
    for (const button of this.rows.children) button.setAttribute("aria-pressed", button.dataset.part === String(part));
  }
  draw(screen) {
    this.screen = screen;
    const last = Math.ceil(this.list.count / ROW), from = screen * ROWS, to = Math.min(last, from + ROWS);
    this.rows.replaceChildren(...Array.from({ length: to - from }, (_, i) => this.row(from + i)));
    this.turn.replaceChildren(...last > ROWS ? [this.turner("‹ Rows before", screen - 1, last), this.turner("Rows after ›", screen + 1, last),
      `rows ${shown(from + 1)} to ${shown(to)} of ${shown(last)}`] : []);
  }
  turner(words, screen, last) {
    const button = el("button", { onclick: () => this.view.go(screen * ROWS) }, words);
    button.disabled = screen < 0 || screen * ROWS >= last;
    return button;
  }
  row(part) {
    const first = part * ROW, to = Math.min(this.list.count, first + ROW);
    const show = () => {
      this.view.go(part);
      this.heading.scrollIntoView({ block: "start" });
    };
    return el("button", { "data-part": part, "aria-label": `Show records ${first + 1} to ${to}`, onclick: show },
      el("span", {}, shown(first + 1)), rowPicture(this.list, first));
  }
  nodes() {
    const key = [6, 2, 0].map((stream) => {
      const { records, bytes } = this.list.sums[stream], below = stream === 0 ? " (below the line)" : "";
      return el("span", {}, el("i", { style: `background:var(--${STREAMS[stream]})` }),
        `${STREAMS[stream]}, ${SENTENCES.stream[stream].means}${below}: ${plural(records, "record")}, ${plural(bytes, "byte")}`);
    });
    const how = `A bar is a record, in the order kept, higher the longer it is; ${ROW} in a row, a line every 50. An outbox has no times. Press a row to read its records.`;
    return [el("h2", {}, "The firing"), el("p", { class: "key" }, ...key), el("p", {}, el("small", {}, how)), this.rows, this.turn, this.heading, this.view.node];
  }
}

// ---- what is said, and what can be saved
function outboxVerdict(library, list, end, lastWords) {
  const kept = plural(list.count, "record");
  if (!end.number) {
    const size = el("p", {}, `${plural(library.length, "byte")}, version 0${library.memory[library.input]}. `, el("code", {}, endLine(end)));
    return say("good", list.count ? `Whole: ${kept}` : "Whole, and nothing was kept yet", size, list.count > 0 && el("p", {}, "The last one: ", lastWords));
  }
  const { title, rest } = SENTENCES.outbox[end.number], placed = (text) => text?.replaceAll("PLACE", end.place);
  const where = end.place > 0 && `: ${kept} before it ${list.count === 1 ? "is" : "are"} whole, ${plural(library.length - end.place, "byte")} from there to the end.`;
  return say("bad", title, el("p", {}, el("code", {}, endLine(end)), where), placed(rest), ...toDo("outbox", end.number).map(placed));
}
// Every line that `records --payloads` prints, in parts of some 64 KB.
async function listFile(out, library, list, end) {
  const parts = [];
  let lines = "", n = 0;
  const done = await each(out, library.records(), list.count, (record) => {
    lines += recordLine(library, record) + "\n";
    if (lines.length > CHUNK) {
      parts.push(new Blob([lines]));
      lines = "";
    }
    return ++n;
  });
  return done && [...parts, lines, endLine(end) + "\n"];
}
function listButton(out, library, list, end, name) {
  return el("button", { onclick: async ({ target }) => {
    target.disabled = true;
    const parts = await listFile(out, library, list, end);
    if (parts) target.replaceWith(saveLink("Save the list", `${name}.txt`, parts, true));
  } }, "Make a list to save");
}
// The records before a refusal, where the module says that they are a whole outbox.
async function wholeLink(bytes, end, name) {
  const whole = await Library.open(module, bytes.subarray(0, end.place));
  return whole.isWhole() && saveLink(`Save the ${plural(end.place, "whole byte")}`, `${name}.whole`, [bytes.slice(0, end.place)], true);
}
function movedNodes(moved, version, name) {
  if (moved.number) return [say("bad", "It cannot be moved", el("p", {}, el("code", {}, endLine(moved))), SENTENCES.outbox[moved.number].says)];
  if (!moved.same) return [say("bad", "Not moved", "Moved back it is not the same file. Tell the engineers")];
  return [saveLink(`Save it as version 0${version}`, `${name}.0${version}`, [moved.bytes], true),
    el("small", {}, `Moved back it is this file, byte for byte. ${plural(moved.bytes.length, "byte")}.`)];
}
function moveButton(out, bytes, list, name) {
  const version = bytes[0] === 1 ? 2 : 1, run = out.run;
  return el("button", { onclick: async ({ target }) => {
    target.disabled = true;
    const moved = await beside(out, bytes, "move", version, list.count);
    if (out.run === run) target.replaceWith(...movedNodes(moved, version, name));
  } }, `Move to version 0${version}`);
}
export async function showOutbox(bytes, name) {
  const out = begin($("outbox")), library = await Library.open(module, bytes), list = new RecordList();
  const end = await each(out, library.records(), bytes.length, (record) => {
    list.add(record);
    return record.place;
  });
  if (!end) return;
  const what = (i) => {
    const { start, length } = library.recordAt(list.places[i]);
    return payloadNode(payloadOf(library, library.input + start, length, 400));
  };
  const buttons = el("div", { class: "row" });
  out.append(outboxVerdict(library, list, end, list.count > 0 && what(list.count - 1)), buttons);
  if (list.count) {
    const firing = new Firing(list, (i) => item(shown(i + 1), what(i), `${STREAMS[list.streams[i]]}, ${plural(list.lengths[i], "byte")}, at ${list.places[i]}`));
    out.append(...firing.nodes());
    firing.view.go(Infinity);
    buttons.append(listButton(out, library, list, end, name));
    if (end.number) buttons.append(await wholeLink(bytes, end, name) || "");
  }
  if (!end.number) buttons.append(moveButton(out, bytes, list, name));
}
