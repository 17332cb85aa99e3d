// programs.mjs [ROUNDS [SEED]]: what the built page says of random inputs is what the programs in target/bin and tools/capture print.
import fs from "node:fs";
import path from "node:path";
import { createHash } from "node:crypto";
import { spawnSync } from "node:child_process";
import { Inputs } from "./inputs.mjs";
import { ROOT, builtPage } from "./page.mjs";

const [rounds = "100", seed = "1"] = process.argv.slice(2), page = await builtPage(), { Library } = page;
const inputs = new Inputs(seed, await Library.open(page.module, new Uint8Array(0)), page.captureOf);
const STACK = 65536, PAINT = 0xa5;
let compared = 0, different = 0, deepest = 0;
const met = {};

const meet = (what) => { met[what] = (met[what] ?? 0) + 1; };
// The input is a file: move_outbox reads it twice.
function run(name, input, ...words) {
  const file = path.join(page.folder, "input");
  fs.writeFileSync(file, input);
  const given = fs.openSync(file), { stdout, stderr, status } = spawnSync(path.join(ROOT, name), words, { stdio: [given, "pipe", "pipe"], maxBuffer: 1 << 28 });
  fs.closeSync(given);
  return { out: stdout, said: stderr.toString(), status };
}
function same(what, ours, theirs, input) {
  compared++;
  const [a, b] = [Buffer.from(ours), Buffer.from(theirs)];
  if (a.equals(b)) return;
  const file = path.join(page.folder, `different_${++different}`);
  fs.writeFileSync(file, input);
  if (different <= 5) console.log(`different: ${what}, on ${file}\n page    ${a.toString().slice(0, 400)}\n program ${b.toString().slice(0, 400)}`);
}
// The stack lies lowest in the memory; what of it was used is no longer painted.
async function painted(input) {
  const library = await Library.open(page.module, input);
  library.memory.fill(PAINT, 0, STACK);
  return library;
}
function sound(library) {
  const used = library.memory.subarray(0, STACK).findIndex((b) => b !== PAINT);
  if (used >= 0) deepest = Math.max(deepest, STACK - used);
}
function drain(generator, see) {
  for (;;) {
    const { value, done } = generator.next();
    if (done) return value;
    see(value);
  }
}

async function tryOutbox() {
  const input = inputs.outbox(), library = await painted(input), plain = [], lines = [];
  const end = drain(library.records(), (record) => {
    plain.push(`record ${record.place} ${record.stream} ${record.length}`);
    lines.push(page.recordLine(library, record));
  });
  const text = (list) => [...list, page.endLine(end), ""].join("\n");
  same("records", text(plain), run("target/bin/records", input).out, input);
  same("records --payloads", text(lines), run("target/bin/records", input, "--payloads").out, input);
  meet(end.number ? `outbox refused ${end.number}` : "outbox");
  for (const version of [1, 2]) tryMove(library, input, version, plain.length);
  sound(library);
}
function tryMove(library, input, version, records) {
  const moved = library.move(version, records), theirs = run("target/bin/move_outbox", input, `0${version}`);
  meet(moved.number ? `move refused ${moved.number}` : "moved");
  if (moved.number) return same("move_outbox refuses", `move_outbox: refused ${moved.number} at ${moved.place}`, theirs.said.split("\n")[0], input);
  same("move_outbox", moved.bytes, theirs.out, input);
  same("moved back", String(moved.same), "true", input);
}
async function tryStream() {
  const input = inputs.stream(), library = await painted(input), lines = [];
  const end = drain(library.frames(4096), (event) => {
    if (event.rest) return;
    lines.push(page.frameLine(event));
    meet(event.number ? `frames refused ${event.number}` : "frame");
  });
  lines.push(`skipped ${end.skipped}`, `end ${end.end} ${end.inside ? "inside" : "outside"}`, "");
  same("frames", lines.join("\n"), run("target/bin/frames", input).out, input);
  sound(library);
}
async function tryCapture() {
  const { choose, random } = { choose: (...list) => inputs.choose(...list), random: (n) => inputs.random(n) };
  const room = choose(20, 20, 21, 23, 100, 244, 258, 259, 261, 262, 263, 264, 512, 20 + random(493)), limit = choose(4096, 4096, 65535, 35, 300, 1 + random(2000));
  const capture = inputs.capture(room, limit), asked = random(30) ? (random(6) ? room : choose(20, 244, room + 1)) : random(600), bound = random(8) ? limit : random(65536);
  const input = Buffer.concat([Uint8Array.of(asked >> 8, asked & 255, bound >> 8, bound & 255), capture]);
  const library = await painted(capture), told = library.why(asked, bound);
  same("lawful", `${page.lawfulLine(told)}\n`, run("target/bin/lawful", input).out, input);
  same("why", `${page.whyLines(told).join("\n")}\n`, run("target/bin/why", input).out, input);
  if (told.verdict !== "refused") {
    const [way] = page.readLog(input).ways;
    same("room and limit in front", `${way.room} ${way.limit}`, `${asked} ${bound}`, input);
  }
  meet(told.verdict + (told.number ? ` ${told.number}` : "") + (told.reader ? `, reader ${told.reader}` : ""));
  sound(library);
}
async function tryReport() {
  const limit = inputs.choose(64, 300, 4096, 65535), files = [], lines = [];
  let report = page.emptyReport(), taken = 0;
  for (let n = 1 + inputs.random(3); n > 0; n--) {
    const capture = inputs.random(6) ? inputs.capture(inputs.choose(20, 100, 512), limit) : inputs.damage(inputs.capture(20, limit));
    const file = path.join(page.folder, `capture_${n}`), library = await painted(capture), added = library.add(report, limit);
    fs.writeFileSync(file, capture);
    files.push(file);
    meet(added.number ? `report refused ${added.number}` : "report");
    if (added.number) lines.push(`${file}: refused ${added.number} at ${added.place}`);
    else [report, taken] = [added.report, taken + 1];
    sound(library);
  }
  lines.push(...page.reportLines(report), `${taken} of ${files.length} captures`, "");
  same("radio_report", lines.join("\n"), run("target/bin/radio_report", "", String(limit), ...files).out, files.join());
}
// Each way to read a log against the converter; a log that one of them refuses the other refuses too.
function tryLog() {
  const log = inputs.log(), read = page.readLog(log), file = path.join(page.folder, "log");
  fs.writeFileSync(file, log);
  meet(read.error ? "log refused" : "log");
  for (const way of read.ways ?? []) {
    const words = [...way.way === "sent by" ? ["--notified"] : [], "--connection", String(way.connection), "--handle", String(way.handle), way.received ? "--received" : "--sent"];
    const theirs = run("tools/capture", "", ...words, file), fronted = run("tools/capture", "", ...words, "--front", "log", "4096", file);
    same("a log's way", way.error ? "" : way.capture, theirs.out, log);
    const room = fronted.status === 0 ? String(fronted.out[0] << 8 | fronted.out[1]) : "not told";
    same("a log's room", way.error ? "not told" : String(way.room ?? "not told"), room, log);
  }
  if (read.error) for (const words of [[], ["--notified"]]) same("a log refused", "", run("tools/capture", "", ...words, file).out, log);
}
function tryLines() {
  const text = inputs.lines(page.hexOf), read = page.readLog(text), file = path.join(page.folder, "log");
  fs.writeFileSync(file, text);
  meet(read.error ? "lines refused" : "lines");
  same("lines in base 16", read.error ? "" : read.ways[0].capture, run("tools/capture", "", file).out, text);
}
// What begins as a zip, gzip, pcapng or pcap file is named as such by both.
function tryOthers() {
  for (const [begin, word] of [["504b0304", "zip"], ["1f8b08", "gzip"], ["0a0d0d0a", "pcap"], ["a1b2c3d4", "pcap"], ["d4c3b2a1", "pcap"], ["a1b23c4d", "pcap"], ["4d3cb2a1", "pcap"]]) {
    const bytes = Buffer.concat([Buffer.from(begin, "hex"), Buffer.alloc(40)]), file = path.join(page.folder, "log");
    fs.writeFileSync(file, bytes);
    const named = (said = "") => new RegExp(`^(capture: t|T)his is a ${word}`).test(said) ? word : said;
    same("no log", named(page.readLog(bytes).error), named(run("tools/capture", "", file).said), bytes);
  }
}

same("the module's version", String((await painted(new Uint8Array(0))).version()), /<meta name="version" content="(\d+)">/.exec(page.html)[1], "");
same("the module's checksum", page.checksum, createHash("sha256").update(page.wasm).digest("hex"), "");
tryOthers();
for (let round = 0; round < Number(rounds); round++) {
  await tryOutbox();
  await tryStream();
  for (let n = 0; n < 4; n++) await tryCapture();
  await tryReport();
  if (round % 3 === 0) tryLog();
  if (round % 3 === 0) tryLines();
}
console.log(Object.entries(met).sort().map(([what, n]) => `${what}: ${n}`).join("; "));
console.log(`programs: ${compared} compared, ${different} different; deepest stack ${deepest} of ${STACK} bytes`);
if (different) process.exit(1);
fs.rmSync(page.folder, { recursive: true });
