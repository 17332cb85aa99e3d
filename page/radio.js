// Captures and logs: whether their sender is lawful, and what the radio cost.
import { COLUMNS, STREAMS, emptyReport } from "./library.js";
import { hexOf, reportRows, whyLines } from "./lines.js";
import { SENTENCES } from "./sentences.js";
import { $, begin, beside, el, plural, prose, say, saveLink, shown } from "./show.js";

const FIELDS = [["id", "id"], ["sequence", "sequence"], ["type", "type"], ["length", "bytes"], ["flag", "ACK flag"], ["extender", "extender"]];
const HEAD = ["id", "sequence", "type"];
const LARGEST_SHOWN = 64;

// ---- an unlawful packet
// What a field must be: a number, or words where more than one will do.
function wanted(expected, field) {
  if (!expected) return "";
  if (field === "type") return expected.type;
  if (field === "id" || field === "sequence") return expected.opened ? expected[field] : "any";
  if (!expected.sized) return "by its total";
  return field === "flag" && expected.last ? "0 or 1" : expected[field];
}
function hintsOf({ came, expected, reader }, off) {
  if (reader) return ["reader"];
  if (expected?.opened && came.type === 0) return ["first"];
  const first = HEAD.find((field) => off.includes(field));
  return first ? [first] : off.map((field) => field === "length" && expected.type === 2 ? "last" : field);
}
function fieldTable(came, expected, fields, off) {
  const name = STREAMS[came.stream] ? `, ${STREAMS[came.stream]}` : "";
  const head = el("tr", {}, el("th", { scope: "col" }, `stream ${came.stream}${name}`), el("th", { scope: "col" }, "expected"), el("th", { scope: "col" }, "came"));
  const rows = fields.map(([field, label]) => el("tr", { class: off.includes(field) ? "differs" : "" },
    el("th", { scope: "row" }, label), el("td", {}, String(wanted(expected, field))), el("td", {}, String(came[field]))));
  return [el("table", {}, head, ...rows), el("p", {}, el("small", {}, SENTENCES.text.fields.means))];
}
function whyNodes(told) {
  const { came, expected, reader, bytes } = told, fields = FIELDS.filter(([field]) => !reader || HEAD.includes(field));
  const off = fields.map(([field]) => field).filter((field) => typeof wanted(expected, field) === "number" && wanted(expected, field) !== came[field]);
  const hex = hexOf(bytes.subarray(0, LARGEST_SHOWN)) + (bytes.length > LARGEST_SHOWN ? " …" : "");
  return [
    ...came.size > 1 && (expected || !reader) ? fieldTable(came, expected, fields, off) : [],
    reader && el("p", {}, el("b", {}, `Our box refuses it too: ${reader}, ${SENTENCES.reader[reader].says}.`)),
    ...hintsOf(told, off).map((hint) => SENTENCES.hint[hint].means),
    el("p", {}, el("small", {}, `The packet, ${plural(came.size, "byte")}: `), el("span", { class: "hex" }, hex)),
  ];
}

// ---- the verdict on one capture
function captureVerdict(told, room, limit) {
  if (told.verdict === "lawful") return say("good", "Lawful", SENTENCES.verdict.lawful.means);
  if (told.verdict === "refused") {
    const { says, rest, do: todo } = SENTENCES.capture[told.number], place = told.place ? ` at ${told.place}` : "";
    return say("bad", `Refused ${told.number}${place}`, ...todo ? [todo] : [says, rest]);
  }
  if (told.verdict === "open") {
    const streams = told.open.map((o) => `stream ${o.stream} (${STREAMS[o.stream]}), id ${o.id}: ${plural(o.left, "byte")} to come, next sequence ${o.sequence}`);
    return say("warn", "Lawful so far, and open", ...streams);
  }
  const lines = `room ${room}, limit ${limit}\n${whyLines(told).join("\n")}`;
  const fold = el("details", {}, el("summary", {}, "The lines to send them"), el("pre", {}, el("code", {}, lines)));
  return say("bad", `Unlawful at ${told.place}`, SENTENCES.verdict.unlawful.means.replace("it", "our writer").replace("PLACE", told.place), ...whyNodes(told), fold);
}
function roomOf(way, typed) {
  const longest = Math.min(512, Math.max(20, way.longest)), room = typed === "" ? way.room ?? longest : Number(typed);
  if (typed !== "") return [room, `Judged at room ${typed}.`];
  if (way.mtu) return [room, `The ATT_MTU is ${way.mtu}, so the room is ${room}.`];
  return [room, way.room ? `The room in front is ${room}.` : `The room is not told: judged at ${room}, by the longest packet here.`];
}
function wayChoice(one, way, again) {
  if (one.ways.length === 1) return way.name === "capture" ? "" : el("p", {}, way.name);
  const options = one.ways.map((each) => el("option", each === way ? { selected: "" } : {}, each.name));
  const choose = (event) => {
    one.way = event.target.selectedIndex;
    again();
  };
  return el("div", {}, el("label", {}, "Which packets of the log", el("select", { onchange: choose }, ...options)), el("p", {}, way.name));
}
const isNumber = (n) => Number.isSafeInteger(n) && n >= 0;
// A number that is none is refused as the module refuses one out of its range, and not handed over.
async function judge(out, way, room, limit, report) {
  if (!isNumber(room) || !isNumber(limit)) return { told: { verdict: "refused", number: isNumber(room) ? 17 : 13 } };
  return beside(out, way.capture, "judge", room, limit, report);
}

// ---- the report
function barChart(title, kinds, rows) {
  const sum = (parts) => parts.reduce((a, b) => a + b, 0), most = Math.max(1, ...rows.map(({ parts }) => sum(parts)));
  const swatch = ([name, colour]) => el("span", {}, el("i", { style: `background:var(--${colour})` }), name);
  const part = (n, i) => n > 0 && el("i", { style: `width:${100 * n / most}%;background:var(--${kinds[i][1]})` });
  return el("div", {}, el("h2", {}, title), el("p", { class: "key" }, ...kinds.map(swatch)), ...rows.flatMap(({ name, parts, told }) =>
    [el("div", {}, el("b", {}, name), " ", el("small", {}, told)), sum(parts) > 0 && el("div", { class: "bar", "aria-hidden": "true" }, ...parts.map(part))]));
}
function reportNodes(report, taken, total, limit) {
  const rows = reportRows(report), n = (row, column) => Number(row[1 + COLUMNS.indexOf(column)]), streams = rows.slice(0, -1);
  const ends = ["finished", "replaced", "dropped", "open"];
  const table = el("table", {}, el("tr", {}, el("td"), ...rows.map(([name]) => el("th", { scope: "col" }, name))), ...COLUMNS.map((column, i) =>
    el("tr", {}, el("th", { scope: "row" }, column), ...rows.map((row) => el("td", {}, shown(row[i + 1]))))));
  const words = el("details", {}, el("summary", {}, "What each line counts"), el("dl", {}, ...COLUMNS.flatMap((column) =>
    [el("dt", {}, column), el("dd", {}, SENTENCES.column[column].means)])));
  const radio = streams.map((row) => ({ name: row[0], parts: [n(row, "payload"), n(row, "bytes") - n(row, "payload")],
    told: plural(n(row, "bytes"), "byte") + (n(row, "bytes") ? `, ${Math.round(100 * n(row, "payload") / n(row, "bytes"))} % payload` : "") }));
  const messages = streams.map((row) => ({ name: row[0], parts: ends.map((end) => n(row, end)),
    told: ends.filter((end) => n(row, end)).map((end) => `${shown(n(row, end))} ${end}`).join(", ") || "none" }));
  return [el("h2", {}, "What the radio cost"), el("p", {}, `${taken} of ${plural(total, "capture")}, at limit ${shown(limit)}.`), table, words,
    barChart("Bytes on the radio", [["payload of finished messages", "done"], ["headers, ACKs, refused, not finished", "other"]], radio),
    barChart("Where messages ended", [["finished", "done"], ["replaced", "OTA"], ["dropped", "Alexa"], ["left open", "control"]], messages)];
}

// ---- the panel
async function showOne(out, one, limit, report, again) {
  out.append(el("h2", {}, one.name));
  const way = one.ways?.[one.way ?? 0], error = one.error ?? way.error;
  if (way) out.append(wayChoice(one, way, again));
  if (error) return out.append(say("bad", "It cannot be read", error));
  const run = out.run, [room, words] = roomOf(way, $("room").value);
  out.append(el("p", {}, words), ...[...one.notes, way.note].filter(Boolean).map((note) => el("p", {}, ...prose(note))));
  const { told, added } = await judge(out, way, room, limit, report);
  if (out.run !== run) return null;
  out.append(captureVerdict(told, room, limit));
  if (way.name !== "capture") out.append(el("div", { class: "row" }, saveLink("Save the capture", `${one.name}.capture.bin`, [way.capture])));
  return added;
}
export async function showRadio(captures) {
  const out = begin($("radio")), run = out.run, limit = Number($("limit").value);
  let report = emptyReport(), taken = 0;
  for (const one of captures) {
    const added = await showOne(out, one, limit, report, () => showRadio(captures));
    if (out.run !== run) return;
    if (added?.number === 0) {
      report = added.report;
      taken++;
    }
  }
  if (taken) out.append(...reportNodes(report, taken, captures.length, limit));
}
// The files, read; a limit that one of them tells stands in its field.
export async function readCaptures(files) {
  const out = begin($("radio")), run = out.run, captures = [];
  for (const { name, bytes } of files) captures.push({ name, ...await beside(out, bytes, "readLog") });
  if (out.run !== run) return null;
  const limit = captures.map((one) => one.ways?.[0].limit).find(Boolean);
  if (limit) $("limit").value = limit;
  return captures;
}
