// The lines of the programs, made of the module's answers.
import { COLUMNS, STREAMS } from "./library.js";
import { textOf } from "./logs.js";
import { SENTENCES } from "./sentences.js";

export const hexOf = (bytes) => Array.from(bytes, (b) => b.toString(16).padStart(2, "0")).join(" ");

// What to do about a number: that of the number that its sentence refers to, then its own.
export const toDo = (kind, number) => {
  const told = SENTENCES[kind][number];
  return [...told.as ? toDo(kind, told.as) : [], told.do].filter(Boolean);
};

// A payload for people: its kind, the words of its first bytes, and how many bytes follow these.
export function payloadOf(library, at, length, most = Infinity) {
  if (length === 0) return { kind: "empty", words: "", more: 0 };
  const kind = library.isText(at, length) ? "text" : "bytes", shown = Math.min(length, kind === "text" ? most : most / 8);
  const bytes = library.memory.slice(at, at + shown);
  return { kind, words: kind === "text" ? textOf(bytes) : hexOf(bytes), more: length - shown };
}
export function recordLine(library, { place, stream, start, length }) {
  const { kind, words } = payloadOf(library, library.input + start, length);
  return `record ${place} ${stream} ${length} ${kind}${words && " " + words}`;
}
export const endLine = ({ number, place }) => number ? `refused ${number} at ${place}` : `end ${place}`;
export const frameLine = ({ number, place, sequence, length }) =>
  number ? `refused ${number} at ${place}` : `frame ${place} ${sequence} ${length}`;

export function lawfulLine({ verdict, number, place }) {
  if (verdict === "refused") return `refused ${number}`;
  return verdict === "unlawful" ? `unlawful at ${place}` : verdict;
}
export function whyLines(told) {
  const first = lawfulLine(told);
  if (told.verdict === "refused") return told.place ? [first, `at ${told.place}`] : [first];
  if (told.verdict === "open")
    return [first, ...told.open.map((o) => `stream ${o.stream}: id ${o.id}, ${o.left} bytes to come, next sequence ${o.sequence}`)];
  return told.verdict === "unlawful" ? [first, ...packetLines(told)] : [first];
}
function packetLines({ came, expected, reader }) {
  const lines = [`stream ${came.stream}`];
  if (expected) lines.push("expected: " + expectedWords(expected));
  lines.push("came: " + cameWords(came, reader));
  if (reader) lines.push(`our reader refuses it: ${reader}, ${SENTENCES.reader[reader].program}`);
  return lines;
}
function expectedWords({ opened, id, sequence, type, sized, length, last, extender }) {
  const head = (opened ? `id ${id}, sequence ${sequence}` : "any id, any sequence") + `, type ${type}`;
  return sized ? `${head}, ${length} bytes, flag ${last ? "0 or 1" : "0"}, extender ${extender}` : head;
}
function cameWords({ size, id, sequence, type, length, flag, extender, total }, reader) {
  const head = `id ${id}, sequence ${sequence}, type ${type}`, body = `, ${length} bytes, flag ${flag}, extender ${extender}`;
  const fields = size < 2 ? "" : head + (reader ? "" : body + (type === 0 ? `, total ${total}` : "")) + "; ";
  return `${fields}${size} bytes in all`;
}

// The report by stream, and of all streams together.
export function reportRows(report) {
  const n = COLUMNS.length, rows = Object.values(STREAMS).map((name, i) => [name, ...report.slice(n * i, n * i + n)]);
  return [...rows, ["total", ...COLUMNS.map((_, column) => rows.reduce((sum, row) => sum + row[column + 1], 0n))]];
}
export const reportLines = (report) => [["", ...COLUMNS], ...reportRows(report)]
  .map(([name, ...cells]) => name.padEnd(8) + cells.map((cell) => String(cell).padStart(10)).join(" "));
