// The calls of the proved module, over bytes that lie in its memory. Runs in a page, in a worker and in node.
export const STREAMS = { 0: "control", 2: "OTA", 6: "Alexa" };
export const COLUMNS = ["firsts", "finished", "replaced", "dropped", "open", "payload", "bytes"];
export const LARGEST_LIMIT = 65535;
const SLOTS = 12, SLOT_BYTES = 8 * SLOTS;
const REPORT_WORDS = 21, WHY_WORDS = 31, SLACK = 1024, PAGE = 65536;
const VERDICTS = ["refused", "lawful", "open", "unlawful"], ANY_FIRST = 1, NEXT = 3;

export const emptyReport = () => new BigUint64Array(REPORT_WORDS);

// An instance of the module for one file. Numbers of 64 bits are BigInt, addresses are not. The module trusts every length, and an
// address wraps at 2^32: no length is handed over that was not reserved here.
export class Library {
  static async open(module, bytes) {
    return new Library(await WebAssembly.instantiate(module, {}), bytes);
  }
  constructor(instance, bytes) {
    this.call = instance.exports;
    this.answer = Math.ceil(this.call.__heap_base.value / 16) * 16;
    this.state = this.answer + 512;
    this.slots = this.state + 64;
    this.sums = this.slots + SLOT_BYTES;
    this.buffer = this.sums + 8 * REPORT_WORDS + 8;
    this.message = this.buffer + SLOTS * (LARGEST_LIMIT + 1);
    this.input = this.message + LARGEST_LIMIT + 1;
    this.length = bytes.length;
    this.reserve(this.input + this.length + SLACK);
    this.memory.set(bytes, this.input);
  }
  // The version is in the name of a function, which returns it.
  version() {
    return Number(this.call[Object.keys(this.call).find((name) => name.startsWith("pito_version_"))]());
  }
  // Growing takes the old views away, so they are made anew here and kept nowhere else.
  reserve(end) {
    const pages = Math.ceil((end - this.call.memory.buffer.byteLength) / PAGE);
    if (pages > 0) this.call.memory.grow(pages);
    this.memory = new Uint8Array(this.call.memory.buffer);
    this.words = new BigUint64Array(this.call.memory.buffer);
  }
  // The first n numbers at an address.
  numbers(at, n) {
    const row = [];
    for (let i = at >>> 3; row.length < n; i++) row.push(Number(this.words[i]));
    return row;
  }

  // ---- an outbox
  recordAt(place) {
    const number = Number(this.call.pito_outbox_record(this.input, BigInt(this.length), BigInt(place), this.answer, 6n));
    const [outcome, stream, start, length, next] = this.numbers(this.answer, 5);
    return { number, place, ended: outcome === 0, stream, start, length, next };
  }
  // Gives each record, and returns the end or the refusal.
  *records() {
    for (let place = 1; ;) {
      const record = this.recordAt(place);
      if (record.number) return { number: record.number, place: record.number === 40 ? 0 : place };
      if (record.ended) return { number: 0, place };
      yield record;
      place = record.next;
    }
  }
  isWhole() {
    return this.call.pito_outbox_whole(this.input, BigInt(this.length), this.answer, 1n) === 0n;
  }
  moveTo(version, from, length, to, room) {
    const call = version === 1 ? this.call.pito_outbox_to_01 : this.call.pito_outbox_to_02;
    const number = Number(call(from, BigInt(length), to, BigInt(room), this.answer, 2n));
    const [written, place] = this.numbers(this.answer, 2);
    return { number, written, place };
  }
  // The file in a version, and whether it is the same file when it is moved back.
  move(version, records) {
    const size = this.length + 2 * records, output = this.input + this.length + SLACK, back = output + size;
    this.reserve(back + this.length + SLACK);
    const { number, written, place } = this.moveTo(version, this.input, this.length, output, size);
    if (number) return { number, place };
    const again = this.moveTo(this.memory[this.input], output, written, back, this.length);
    const same = again.number === 0 && again.written === this.length && this.areSame(back, this.input, this.length);
    return { number, same, bytes: this.memory.slice(output, output + written) };
  }
  areSame(a, b, length) {
    for (let i = 0; i < length; i++) if (this.memory[a + i] !== this.memory[b + i]) return false;
    return true;
  }

  // ---- a Classic stream
  // Outside of a frame the bytes go one by one: so the module tells which of them are skipped.
  *frames(limit) {
    const number = Number(this.call.pito_extractor_open(BigInt(limit), this.state, 4n));
    if (number) return { number };
    let skipped = 0, steps = 0;
    for (let at = 0; at < this.length;) {
      if (this.isOutside()) {
        skipped += this.step(limit, at++);
        if (++steps % PAGE === 0) yield { place: at, rest: true };
        continue;
      }
      const fed = this.feed(limit, at);
      at = fed.place + 1;
      if (fed.number || fed.outcome === 2) yield fed;
    }
    return { number: 0, skipped, end: this.length, inside: !this.isOutside() };
  }
  isOutside() {
    return this.words[(this.state >>> 3) + 1] === 0n;
  }
  // 1 where the byte was skipped.
  step(limit, at) {
    this.call.pito_extractor_step(this.state, 4n, this.buffer, BigInt(limit + 2), this.memory[this.input + at], this.answer, 3n);
    return this.words[this.answer >>> 3] === 0n ? 1 : 0;
  }
  feed(limit, at) {
    const number = Number(this.call.pito_extractor_feed(this.state, 4n, this.buffer, BigInt(limit + 2), this.input + at,
      BigInt(this.length - at), this.answer, 4n));
    const [outcome, used, sequence, length] = this.numbers(this.answer, 4);
    if (used === 0) throw new Error("the extractor used nothing");
    return { number, outcome, place: at + used - 1, sequence, length };
  }

  // ---- a capture
  add(report, limit) {
    this.words.set(report, this.sums >>> 3);
    const number = Number(this.call.pito_report_add(this.sums, BigInt(REPORT_WORDS), BigInt(limit), this.slots, BigInt(SLOTS),
      this.buffer, BigInt(SLOTS * limit), this.input, BigInt(this.length), this.answer, 1n));
    const [place] = this.numbers(this.answer, 1);
    return { number, place, report: this.words.slice(this.sums >>> 3, (this.sums >>> 3) + REPORT_WORDS) };
  }
  // The first of a stream's four numbers is 1 where a transaction is open.
  openIn(row) {
    return Object.keys(STREAMS).map((stream, i) => [Number(stream), ...row.slice(4 * i, 4 * i + 4)]).filter(([, opened]) => opened)
      .map(([stream, , id, left, sequence]) => ({ stream, id, left, sequence }));
  }
  // The verdict; what is open; and of the packet that decides what came, by which number the reader refuses it, and what was expected.
  why(room, limit) {
    const number = Number(this.call.pito_capture_why(this.input, BigInt(this.length), BigInt(room), BigInt(limit), this.answer, BigInt(WHY_WORDS)));
    const [outcome, place, ...row] = this.numbers(this.answer, WHY_WORDS), verdict = VERDICTS[outcome];
    const told = { number, place, verdict, open: this.openIn(row) };
    if (verdict !== "unlawful") return told;
    const [reader, size, stream, id, sequence, type, flag, extender, total, length, kind, ...next] = row.slice(12);
    const [expectedId, expectedSequence, expectedType, expectedLength, expectedExtender, last] = next;
    const expected = kind === 0 ? null : {
      opened: kind === NEXT, sized: kind !== ANY_FIRST, id: expectedId, sequence: expectedSequence, type: expectedType,
      length: expectedLength, extender: expectedExtender, last: last === 1, flag: 0,
    };
    const packet = this.packetAt(place), at = this.input + packet.start, bytes = this.memory.slice(at, at + packet.length);
    return { ...told, reader, expected, came: { size, stream, id, sequence, type, flag, extender, total, length }, bytes };
  }
  packetAt(place) {
    const number = Number(this.call.pito_capture_packet(this.input, BigInt(this.length), BigInt(place), this.answer, 5n));
    const [outcome, start, length, next] = this.numbers(this.answer, 4);
    return { ended: number !== 0 || outcome === 0, start, length, next };
  }
  longestPacket() {
    let longest = 0;
    for (let packet = this.packetAt(1); !packet.ended; packet = this.packetAt(packet.next)) longest = Math.max(longest, packet.length);
    return longest;
  }

  // ---- text
  // Whether bytes in the memory are well formed, and each character is shown.
  isText(at, length) {
    this.call.pito_text(at, BigInt(length), this.answer, 2n);
    return this.numbers(this.answer, 2).every((place) => place === length);
  }
}
