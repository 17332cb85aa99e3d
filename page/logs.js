// Captures out of logs: a btsnoop file, or lines in base 16. This stays JavaScript; what comes out is judged by the module.
const WAYS = { 0x12: "written to", 0x52: "written to", 0x1b: "sent by", 0x1d: "sent by" };
const PARTS = { 0x16: "a part of a long write", 0xd2: "a signed write", 0x23: "several notifications in one" };
const WAYS_OF_PARTS = { 0x16: "written to", 0xd2: "written to", 0x23: "sent by" };
const ATT = 4, LEAST_MTU = 23, LEAST_ROOM = 20, LARGEST_ROOM = 512, LARGEST_TEXT = 1 << 24;

const DECODER = new TextDecoder("utf-8", { ignoreBOM: true });
export const textOf = (bytes) => DECODER.decode(bytes);

// What a file holds: the ways in which it can be read, each with a name and its capture, and its room and limit where the file tells them.
export function readLog(bytes) {
  if (textOf(bytes.subarray(0, 8)) === "btsnoop\0") return fromBtsnoop(bytes);
  if (isPrinted(bytes.subarray(0, 4096))) return fromText(bytes);
  const other = OTHERS.find(([begin]) => begin.every((byte, i) => bytes[i] === byte));
  if (other) return { error: other[1] };
  const front = frontOf(bytes);
  if (front) return { ways: [{ name: "capture with room and limit in front", capture: bytes.slice(4), ...front }], notes: [] };
  return { ways: [{ name: "capture", capture: bytes }], notes: [] };
}
// Files that are taken for a log and are none, by what they begin with.
const PCAP = "This is a pcap or pcapng file, which this page does not read: tshark gives its packets as lines (docs/CREW.md).";
const OTHERS = [
  [[0x50, 0x4b, 3, 4], "This is a zip file: a bug report has the log in it, as btsnoop_hci.log. Unpack it first."],
  [[0x1f, 0x8b], "This is a gzip file: unpack it first."],
  [[0x0a, 0x0d, 0x0d, 0x0a], PCAP], [[0xa1, 0xb2, 0xc3, 0xd4], PCAP], [[0xd4, 0xc3, 0xb2, 0xa1], PCAP],
  [[0xa1, 0xb2, 0x3c, 0x4d], PCAP], [[0x4d, 0x3c, 0xb2, 0xa1], PCAP],
];
function isPrinted(bytes) {
  return bytes.length > 0 && bytes.every((b) => b === 9 || b === 10 || b === 13 || (b > 31 && b < 127));
}
// Room and limit in front of a capture. A room of 256 to 511 begins with 01, as a capture does, so the rest decides.
function frontOf(bytes) {
  const room = bytes[0] << 8 | bytes[1], limit = bytes[2] << 8 | bytes[3];
  if (bytes.length < 5 || bytes[4] !== 1 || room < LEAST_ROOM || room > LARGEST_ROOM) return null;
  return bytes[0] === 1 && isCapture(bytes) ? null : { room, limit };
}
function isCapture(bytes) {
  let at = 1;
  for (let size = 1; at + 1 < bytes.length && size > 0 && size <= LARGEST_ROOM; at += 2 + size) size = bytes[at] << 8 | bytes[at + 1];
  return at === bytes.length;
}
export function captureOf(packets) {
  const capture = new Uint8Array(packets.reduce((size, packet) => size + 2 + packet.length, 1));
  let at = capture[0] = 1;
  for (const packet of packets) {
    capture.set([packet.length >> 8, packet.length & 255], at);
    capture.set(packet, at + 2);
    at += 2 + packet.length;
  }
  return capture;
}

// ---- lines of text
const TOGETHER = /^(?:0[xX])?((?:[0-9a-fA-F]{2})+)$/;
const APART = /^(?:0[xX])?[0-9a-fA-F]{2}(?:(?:[ \t]*[:,;-][ \t]*|[ \t]+)(?:0[xX])?[0-9a-fA-F]{2})*[,;]?$/;
function packetOf(line) {
  const digits = TOGETHER.exec(line)?.[1] ?? (APART.test(line) ? line.replace(/0[xX]/g, "").replace(/[^0-9a-fA-F]/g, "") : null);
  return digits && Uint8Array.from({ length: digits.length / 2 }, (_, i) => parseInt(digits.slice(2 * i, 2 * i + 2), 16));
}
function fromText(bytes) {
  if (bytes.length > LARGEST_TEXT) return { error: "A log in text may have 16 MB here: cut it into parts." };
  const packets = [], lines = textOf(bytes).split("\n");
  for (const [i, whole] of lines.entries()) {
    const line = whole.trim(), packet = line && packetOf(line);
    if (packet === null) return { error: `Line ${i + 1} is no packet in base 16: "${line.slice(0, 40)}". One packet on each line, two digits a byte.` };
    if (packet.length > 65535) return { error: `Line ${i + 1} has more than 65,535 bytes.` };
    if (packet) packets.push(packet);
  }
  return { ways: [{ name: `${packets.length} lines in base 16`, capture: captureOf(packets) }], notes: [] };
}

// ---- a btsnoop file: records, ACL packets, ATT messages
class LogError extends Error {}
const little = (bytes, at) => bytes[at] | bytes[at + 1] << 8;

function fromBtsnoop(log) {
  const kind = log.length < 16 ? 0 : new DataView(log.buffer, log.byteOffset, 16).getUint32(12);
  if (![1001, 1002, 2001].includes(kind)) return { error: `A btsnoop file of kind ${kind}: this page reads 1001, 1002 and 2001.` };
  const groups = new Map(), rooms = new Map(), notes = new Set();
  try {
    for (const message of attMessages(kind, log, notes)) sortOut(message, groups, rooms);
  } catch (error) {
    if (error instanceof LogError) return { error: error.message };
    throw error;
  }
  if (!groups.size) return { error: "This log has no ATT writes and no notifications." };
  const ways = [...groups.values()].map((group) => wayOf(group, rooms.get(group.connection)));
  return { ways: ways.sort((a, b) => b.packets - a.packets), notes: [...notes] };
}
function* snoopRecords(log, notes) {
  const view = new DataView(log.buffer, log.byteOffset, log.length);
  for (let at = 16, number = 1; at < log.length; number++) {
    const size = at + 24 <= log.length ? view.getUint32(at + 4) : Infinity;
    if (at + 24 + size > log.length) {
      notes.add(`The log is cut inside its record ${number}; all before it are taken.`);
      return;
    }
    const data = log.subarray(at + 24, at + 24 + size);
    yield { number, flags: view.getUint32(at + 8), data, missing: Math.max(0, view.getUint32(at) - size) };
    at += 24 + size;
  }
}
// The adapter, the direction, what the record is, and its bytes.
function hciOf(kind, { flags, data }) {
  const received = flags & 1;
  if (kind === 1001) return { adapter: 0, received, word: flags & 2 ? "event" : "acl", data };
  if (kind === 1002) return { adapter: 0, received, word: { 2: "acl", 4: "event" }[data[0]], data: data.subarray(1) };
  return { adapter: flags >>> 16, received, word: { 3: "event", 4: "acl", 5: "acl" }[flags & 0xffff], data };
}
function aclOf({ number, missing }, data) {
  if (data.length < 4) throw new LogError(`Record ${number} is an ACL packet without its head.`);
  const length = data.length - 4 + missing;
  if (little(data, 2) !== length) throw new LogError(`Record ${number} is an ACL packet of ${length} bytes, and its length says ${little(data, 2)}.`);
  return { handle: little(data, 0) & 0xfff, goesOn: (data[1] >> 4 & 3) === 1, data: data.subarray(4) };
}
// The ATT messages, each with its connection and direction.
function* attMessages(kind, log, notes) {
  const links = { open: new Map(), connections: new Map(), count: 0, notes };
  for (const record of snoopRecords(log, notes)) {
    const hci = hciOf(kind, record);
    if (hci.word === "event" && hci.data.length >= 6 && hci.data[0] === 5 && hci.data[2] === 0) disconnect(links, hci);
    const message = hci.word === "acl" && takeAcl(links, hci, record, aclOf(record, hci.data));
    if (message) yield message;
  }
  for (const held of links.open.values())
    if (mayBeAtt(held)) notes.add(`The message that begins in record ${held.number} had not ended when the log did; it is left out.`);
}
function disconnect(links, { adapter, data }) {
  const link = `${adapter}.${little(data, 3) & 0xfff}`;
  links.connections.delete(link);
  for (const received of [0, 1]) links.open.delete(`${link}.${received}`);
}
// An ACL packet: the message that it ends, if it ends one.
function takeAcl(links, { adapter, received }, record, acl) {
  const link = `${adapter}.${acl.handle}`, key = `${link}.${received}`, before = links.open.get(key);
  if (!links.connections.has(link)) links.connections.set(link, ++links.count);
  if (acl.goesOn && !before) {
    links.notes.add(`Record ${record.number} goes on with a message that began before the log; it is left out.`);
    return null;
  }
  if (!acl.goesOn && before) notWhole(before, `record ${record.number} begins another`);
  const held = acl.goesOn ? { ...before, data: joined(before.data, acl.data), missing: before.missing + record.missing }
    : { number: record.number, data: acl.data, missing: record.missing };
  const size = held.data.length >= 2 ? 4 + little(held.data, 0) : 4;
  links.open.set(key, held);
  if (held.data.length + held.missing < size) return null;
  links.open.delete(key);
  if (held.missing) return notWhole(held, "the log has only its first bytes");
  if (held.data.length > size) return notWhole(held, "it has more bytes than its length says");
  return size > 4 && mayBeAtt(held) ? { number: held.number, connection: links.connections.get(link), received, data: held.data.slice(4) } : null;
}
// Of a message whose channel was not logged it is not known, so it may be.
const mayBeAtt = ({ data }) => data.length < 4 || little(data, 2) === ATT;
function notWhole(held, why) {
  if (mayBeAtt(held)) throw new LogError(`The message that begins in record ${held.number} is not whole: ${why}.`);
  return null;
}
function joined(a, b) {
  const both = new Uint8Array(a.length + b.length);
  both.set(a);
  both.set(b, a.length);
  return both;
}
// The answer to a question of the other side: the MTU, and since which record it is this one.
function agree(room, asker, answered, number) {
  const agreed = Math.max(LEAST_MTU, Math.min(room.asked[asker], answered));
  delete room.asked[asker];
  if (agreed !== room.agreed) Object.assign(room, { agreed, since: number });
}
// The packets by connection, ATT handle, direction and kind; and the room that each connection agreed on.
function sortOut({ number, connection, received, data }, groups, rooms) {
  if (!rooms.has(connection)) rooms.set(connection, { asked: {}, agreed: null, since: 0 });
  const room = rooms.get(connection), way = WAYS[data[0]] ?? (data.length >= 3 ? WAYS_OF_PARTS[data[0]] : null);
  if (data.length === 3 && data[0] === 2) room.asked[received] = little(data, 1);
  if (data.length === 3 && data[0] === 3 && 1 - received in room.asked) agree(room, 1 - received, little(data, 1), number);
  if (!way) return;
  if (data.length < 3) throw new LogError(`The message that begins in record ${number} has no ATT handle.`);
  const handle = little(data, 1), key = [connection, handle, received, way].join();
  if (!groups.has(key)) groups.set(key, { connection, handle, received, way, packets: [], first: number, error: null });
  const group = groups.get(key);
  if (data[0] in PARTS) group.error ??= `The message that begins in record ${number} is ${PARTS[data[0]]}, and no packet of its own.`;
  else if (data.length === 3) group.error ??= `The message that begins in record ${number} has a packet of no bytes.`;
  else group.packets.push(data.subarray(3));
}
function wayOf({ connection, handle, received, way, packets, first, error }, { agreed: mtu, since }) {
  const hex = handle.toString(16).padStart(4, "0");
  const name = `${packets.length} packets ${way} handle 0x${hex}, connection ${connection}, ${received ? "received" : "sent"}`;
  const told = { name, packets: packets.length, connection, handle, received, way, error, capture: captureOf(packets) };
  if (mtu === null || first < since) return { ...told, note: mtu === null ? "The log has no MTU exchange of this connection." : "The log's MTU exchange came after some of these packets." };
  return { ...told, mtu, room: Math.min(mtu - 3, LARGEST_ROOM) };
}
