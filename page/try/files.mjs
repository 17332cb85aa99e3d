// The files that browser.mjs gives the page, written to a folder.
import fs from "node:fs";
import path from "node:path";
import { randomBytes } from "node:crypto";

const SAID = ["stoked, six splits", "stoked, four splits", "side stoked, three splits", "ember bed raked", "cone nine is down at the front", "damper half shut"];
const hex = (text) => Buffer.from(text.replaceAll(" ", ""), "hex");
const big = (n, width) => Buffer.from(Array.from({ length: width }, (_, i) => n / 256 ** (width - 1 - i) & 255));
const little = (n) => Buffer.from([n & 255, n >> 8]);
const times = (n, make) => Buffer.concat(Array.from({ length: n }, (_, i) => make(i)));

export function outbox(version, records) {
  return Buffer.concat([Buffer.from([version]), ...records.map(([stream, said]) => {
    const payload = Buffer.from(said);
    return Buffer.concat([big(payload.length + 1, version === 1 ? 2 : 4), Buffer.from([stream]), payload]);
  })]);
}
function firing(n) {
  return Array.from({ length: n }, (_, i) => i % 37 === 20 ? [0, hex("085e")] : i === 7 || i === 8 ? [2, Buffer.alloc(400 * (i - 6), 0xf5)]
    : i === 3 ? [6, "größerer Scheit, äußerst heiß"] : i === 5 ? [6, "links \u202e rechts"] : [6, SAID[i * i % 11 % SAID.length]]);
}
function frame(text, sequence) {
  const body = Buffer.from(text), sum = body.reduce((a, b) => a + b, 2), escaped = [...body, ...big(sum, 2)];
  return Buffer.from([0xf0, 2, 0, sequence, ...escaped.flatMap((b) => ({ 0xf0: [0xf2, 0], 0xf1: [0xf2, 2], 0xf2: [0xf2, 3] })[b] ?? [b]), 0xf1]);
}
function packetsOf(message, room, head, first) {
  const packets = [];
  for (let at = 0, sequence = first; at < message.length || !packets.length; sequence++) {
    const start = packets.length === 0, n = Math.min(message.length - at, room - (start ? 6 : 3)), last = at + n === message.length;
    const fields = [head, sequence % 16 << 4 | (start ? 0 : last ? 8 : 4), ...start ? [0, ...big(message.length, 2)] : [], n];
    packets.push(Buffer.concat([Buffer.from(fields), message.subarray(at, at += n)]));
  }
  return packets;
}
function btsnoop() {
  const acl = (data, goesOn) => Buffer.concat([Buffer.from([2]), little(64 | (goesOn ? 0x1000 : 0)), little(data.length), data]);
  const record = (received, data) => Buffer.concat([big(data.length, 4), big(data.length, 4), big(received, 4), Buffer.alloc(12), data]);
  const att = (received, message) => {
    const whole = Buffer.concat([little(message.length), little(4), message]);
    return times(Math.ceil(whole.length / 27), (i) => record(received, acl(whole.subarray(27 * i, 27 * i + 27), i > 0)));
  };
  const write = (packet) => att(0, Buffer.concat([hex("521200"), packet]));
  const message = (k) => Buffer.from(SAID[k % SAID.length].repeat([1, 1, 20, 60][k % 4]));
  return Buffer.concat([Buffer.from("btsnoop\0"), big(1, 4), big(1002, 4), att(0, hex("020502")), att(1, hex("03f700")),
    times(40, (k) => Buffer.concat([...packetsOf(message(k), 244, 0x60 + k % 16, k % 16).map(write), att(1, hex(`1b1500 6${(k % 16).toString(16)} 0e 00020100`))]))]);
}
function damagedStream() {
  const stream = times(600, (k) => frame(SAID[k % SAID.length], k % 0xf0));
  for (let i = 0; i < 60; i++) stream[i * 7919 % stream.length] = i * 31 & 255;
  return stream;
}
const THEIRS = "0100140000000014 0e 2e2e2e2e2e2e2e2e2e2e2e2e2e2e 000a001807 2e2e2e2e2e2e2e";
const FILES = {
  "one.bin": () => outbox(2, firing(1)), "firing2000.bin": () => outbox(2, firing(2000)), "firing2000_01.bin": () => outbox(1, firing(2000)),
  "cut.bin": () => outbox(2, firing(500)).subarray(0, -9), "zeros.bin": () => Buffer.concat([outbox(2, firing(100)), Buffer.alloc(500)]),
  "stream.bin": () => outbox(2, [...firing(50), [5, "x"]]), "empty.bin": () => Buffer.alloc(0), "version.bin": () => Buffer.from([2]),
  "long_record.bin": () => outbox(2, [[2, Buffer.alloc(5000)]]), "their.bin": () => hex(THEIRS), "asked.bin": () => hex(`00141000${THEIRS}`),
  "open.bin": () => hex("0100146000000014 0e 2e2e2e2e2e2e2e2e2e2e2e2e2e2e"), "half.bin": () => hex("01001460"),
  "hex.txt": () => "60:00:00:00:01:01:41\r\n\r\n0x60,0x10,0x00,0x00,0x02,0x02,0x41,0x42\n612000000000\n", "bad.txt": () => "60 00 00 00 01 01 41\n60 0\n",
  "marks5.bin": () => Buffer.alloc(5_000_000, 0xf0), "phone.btsnoop": btsnoop, "damaged_serial.bin": damagedStream,
};
const LONG = 50_000_000;
const LONG_FILES = {
  "rubbish50.bin": () => Buffer.concat([Buffer.from([0x77]), randomBytes(LONG)]), "rubbish50_01.bin": () => Buffer.concat([Buffer.from([1]), randomBytes(LONG)]),
  "records50.bin": () => Buffer.concat([Buffer.from([2]), Buffer.alloc(LONG, outbox(2, [[6, SAID[0]]]).subarray(1))]).subarray(0, 1 + 23 * Math.floor(LONG / 23)),
  "packets50.bin": () => Buffer.concat([Buffer.from([1]), Buffer.alloc(9 * Math.floor(LONG / 9), hex("0007 60000000010141"))]),
  "text50.txt": () => Buffer.alloc(LONG, "60 00 00 00 01 01 41\n"),
};
export function writeFiles(folder, long) {
  for (const [name, make] of Object.entries({ ...FILES, ...long ? LONG_FILES : {} })) fs.writeFileSync(path.join(folder, name), make());
}
