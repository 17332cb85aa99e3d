// Random inputs, nearly right: outboxes, Classic streams, captures and logs, with a little damage.
export class Inputs {
  constructor(seed, library, captureOf) {
    this.state = BigInt(seed) * 0x9e3779b97f4a7c15n & (1n << 64n) - 1n;
    this.library = library;
    this.captureOf = captureOf;
  }
  random(n) {
    this.state = this.state * 6364136223846793005n + 1442695040888963407n & (1n << 64n) - 1n;
    return Number(this.state >> 33n) % n;
  }
  choose(...list) {
    return list[this.random(list.length)];
  }
  bytes(n) {
    return Uint8Array.from({ length: n }, () => this.random(256));
  }
  many(n, make) {
    return Array.from({ length: n }, make);
  }
  damage(input) {
    const out = [...input];
    for (let n = this.choose(0, 0, 0, 1, 1, 2, 5); n > 0 && out.length; n--) {
      const at = this.random(out.length);
      this.choose(() => { out[at] = this.random(256); }, () => out.splice(at, 1), () => out.splice(at, 0, this.random(256)),
        () => { out.length = at; }, () => { out[at] ^= 1 << this.random(8); })();
    }
    return Uint8Array.from(out);
  }

  // ---- outboxes
  text() {
    return Buffer.from(this.choose("stoked, six splits", "größer", "コーン十", "a\tb", "\u0085", "\uFEFFbom", "\uFFFF", "", "\u202eabc", "ab\u2066c",
      "\u200e", "\u2027", "\u202f", "\u2065", "\u206a", "\u061c", "\u061b", "😀", "\ud7ff\ue000"));
  }
  payload() {
    return this.choose(() => this.text(), () => this.bytes(this.random(40)), () => Buffer.from("x".repeat(this.random(600))),
      () => this.bytes(4094 + this.random(5)), () => Buffer.from("ä".repeat(this.random(300))),
      () => Buffer.concat([this.text(), this.bytes(this.random(3))]), () => Buffer.concat([this.text(), this.text()]))();
  }
  record(version) {
    const payload = this.random(60) ? this.payload() : this.bytes(60000 + this.random(5536)), n = payload.length + 1;
    if (version === 1 && n > 4097) return [];
    return [...version === 1 ? [] : [n >>> 24, n >> 16 & 255], n >> 8 & 255, n & 255, this.choose(0, 2, 6, 6, 6), ...payload];
  }
  outbox() {
    const version = this.choose(1, 2), whole = Uint8Array.from([version, ...this.many(this.random(12), () => this.record(version)).flat()]);
    return this.random(10) ? this.damage(whole) : this.bytes(this.random(50));
  }

  // ---- Classic streams
  frame() {
    const { call, memory, message, buffer, answer } = this.library, payload = this.payload();
    memory.set(payload, message);
    const number = call.pito_frame_write(BigInt(this.random(240)), 65535n, message, BigInt(payload.length), buffer, BigInt(2 * payload.length + 9), answer, 1n);
    memory.fill(0, message, message + payload.length);
    return number ? [] : [...memory.slice(buffer, buffer + this.library.numbers(answer, 1)[0])];
  }
  stream() {
    if (this.random(10) === 0) return Uint8Array.from({ length: this.random(300) }, () => this.choose(0xf0, 0xf1, 0xf2, 2, 0, this.random(256)));
    return this.damage(this.many(this.random(8), () => [...this.bytes(this.random(4)), ...this.frame()]).flat());
  }

  // ---- captures
  message(room, limit, stream) {
    const total = Math.min(limit, this.choose(0, 1, 14, 20, 300, 2000, this.random(600))), packets = [];
    const [id, sequence] = [this.random(16), this.random(16)], { library } = this;
    for (let place = 0, last = false; !last;) {
      const { call, message, buffer, answer } = library;
      const number = call.pito_packet_write(BigInt(room), BigInt(limit), BigInt(stream), BigInt(id), BigInt(sequence), 0n,
        message, BigInt(total), BigInt(place), buffer, BigInt(room), answer, 2n);
      const [size, next] = library.numbers(answer, 2);
      if (number) break;
      [place, last] = [next, next === total];
      packets.push(library.memory.slice(buffer, buffer + size));
      if (last && this.random(2)) packets[packets.length - 1][1] |= 2;
    }
    return packets;
  }
  ack(second = 14, last = 0) {
    return Uint8Array.of(this.choose(0, 32, 96) + this.random(16), second, 0, 2, 1, last);
  }
  // Something wrong with one packet.
  spoil(packets) {
    const at = this.random(packets.length), own = packets[at];
    const put = (packet) => { packets[at] = packet; };
    this.choose(() => packets.splice(at, 1), () => packets.splice(at, 0, packets[this.random(packets.length)]), () => { packets.length = at; },
      () => put(own.map((b, i) => i === 1 ? b ^ 2 : b)), () => put(this.damage(own)), () => put(own.map((b, i) => i === this.random(7) ? b ^ 1 << this.random(8) : b)),
      () => put(this.ack(this.choose(14, 12, 13, 15), this.choose(0, 3, 4))), () => put(own.map((b, i) => (own[1] & 13) || own.length < 7 ? b : i === 3 ? 0 : i === 4 ? Math.max(0, own[5] - 1) : b)),
      () => put(Uint8Array.of(own[0], 16 * this.random(16) + this.choose(4, 8), 0)), () => put(this.bytes(1 + this.random(8))), () => put(own.slice(0, 1)))();
  }
  capture(room, limit) {
    const lanes = [0, 2, 6].map((stream) => this.many(this.random(4), () => this.message(room, limit, stream)).flat()), packets = [];
    while (lanes.some((lane) => lane.length)) {
      const lane = this.choose(...lanes);
      if (lane.length) packets.push(this.random(12) ? lane.shift() : this.ack());
    }
    for (let n = this.choose(0, 0, 1, 1, 1, 2); n > 0 && packets.length; n--) this.spoil(packets);
    return this.random(20) ? this.captureOf(packets.filter((packet) => packet.length)) : this.damage(this.captureOf(packets));
  }

  // ---- btsnoop files and lines of text
  log() {
    const kind = this.choose(1001, 1002, 2001), items = [];
    const log = { kind, put: (received, data) => items.push(snoopRecord(kind, received, data)) };
    if (this.random(3)) this.exchange(log);
    for (let n = 1 + this.random(30); n > 0; n--) this.logged(log);
    const whole = Uint8Array.from([...Buffer.from("btsnoop\0"), ...big(1), ...big(kind), ...items.flat()]);
    return this.random(6) ? whole : whole.slice(0, 16 + this.random(whole.length - 16));
  }
  exchange(log) {
    const received = this.random(2);
    this.att(log, received, [2, ...little(this.choose(517, 247, 23, 10))]);
    this.att(log, 1 - received, [3, ...little(this.choose(517, 247, 185, 23))]);
  }
  logged(log) {
    this.choose(() => this.att(log, 0, [this.choose(0x12, 0x52), 0x12, 0, ...this.bytes(1 + this.random(300))]),
      () => this.att(log, 0, [0x52, this.choose(0x12, 0x14), 0, ...this.bytes(1 + this.random(30))]),
      () => this.att(log, 1, [this.choose(0x1b, 0x1d), 0x15, 0, ...this.bytes(1 + this.random(20))]),
      () => this.att(log, this.random(2), [10, ...this.bytes(this.random(9))]), () => this.random(12) || this.exchange(log),
      () => this.random(12) || log.put(1, [5, 4, 0, 64, 0, 19].slice(0, 6), "event"),
      () => this.random(20) || this.att(log, 0, [this.choose(0x16, 0xd2), 0x12, 0, 1, 2, 3]), () => this.random(20) || this.att(log, 0, [0x52, 0x12, 0]))();
  }
  att({ put }, received, message) {
    const whole = [...little(message.length), ...little(this.random(15) ? 4 : 5), ...message], size = this.choose(27, 27, 251, 1000);
    for (let i = 0; i < whole.length; i += size) {
      const part = whole.slice(i, i + size);
      put(received, [...little(64 | (i ? 0x1000 : this.choose(0, 0x2000))), ...little(part.length), ...part]);
    }
  }
  lines(hexOf) {
    const between = this.choose(" ", "", ":", ",", "-", "\t", " 0x"), line = () => {
      const digits = hexOf(this.bytes(1 + this.random(40))).replaceAll(" ", between);
      return this.choose("", "", "\n") + (between === " 0x" ? "0x" : "") + digits + (this.random(40) ? this.choose("", " ") : this.choose("x", ",")) + this.choose("\n", "\r\n");
    };
    return Buffer.from(this.many(1 + this.random(20), line).join(""));
  }
}
const little = (n) => [n & 255, n >> 8];
const big = (n) => [n >>> 24, n >> 16 & 255, n >> 8 & 255, n & 255];
function snoopRecord(kind, received, data) {
  const isEvent = data[0] === 5 && data.length === 6, own = kind === 1002 ? [isEvent ? 4 : 2, ...data] : data;
  const flags = kind === 2001 ? (isEvent ? 3 : received ? 5 : 4) : received | (isEvent ? 2 : 0);
  return [...big(own.length), ...big(own.length), ...big(flags), ...Array(12).fill(0), ...own];
}
