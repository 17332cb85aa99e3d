// Classic bytes: frames and refusals.
import { LARGEST_LIMIT, Library } from "./library.js";
import { payloadOf, toDo } from "./lines.js";
import { SENTENCES } from "./sentences.js";
import { $, begin, each, el, item, module, pages, payloadNode, plural, prose, say, shown } from "./show.js";

const MOST_LINES = 200000, PART = 200;
const WORDS = SENTENCES.frames;

// Equal refusals that follow each other are one line.
class FrameList {
  lines = [];
  counts = {};
  frames = 0;
  see(library, event) {
    if (event.rest) return;
    const { number, place } = event, before = this.lines[this.lines.length - 1];
    if (number) this.counts[number] = (this.counts[number] ?? 0) + 1;
    else this.frames++;
    if (number && before?.number === number && before.alone) {
      before.times++;
      before.to = place;
    } else if (this.lines.length < MOST_LINES) {
      const payload = number ? null : payloadOf(library, library.buffer, event.length, 400);
      this.lines.push({ ...event, payload, times: 1, to: place, alone: true });
    } else before.alone = false;
  }
  get refused() {
    return Object.values(this.counts).reduce((sum, n) => sum + n, 0);
  }
}
function lineNode({ number, place, payload, sequence, length, times, to }) {
  if (!number) return item(String(place), payloadNode(payload), `frame, sequence byte ${sequence}, ${plural(length, "byte")}`);
  return item(String(place), `refused ${number}` + (times > 1 ? `, ${shown(times)} times, the last at ${to}` : ""), WORDS[number].says, "refused");
}
function frameVerdict(list, end) {
  const kind = list.refused ? "warn" : list.frames ? "good" : "bad", numbers = Object.keys(list.counts);
  const outside = `${plural(end.end, "byte")}, ${shown(end.skipped)} of them outside of any frame`;
  const todo = new Set(numbers.flatMap((number) => toDo("frames", number)));
  return say(kind, `${plural(list.frames, "frame")}, ${shown(list.refused)} refused`,
    outside + (end.inside ? "; a frame had begun and its end had not come" : ""),
    end.end > 0 && end.skipped === end.end && WORDS.none.says,
    ...numbers.map((number) => `${shown(list.counts[number])} × ${number}: ${WORDS[number].says}`),
    ...todo,
    list.refused > 0 && "The next frame is found again by itself");
}
export async function showSerial(bytes) {
  const out = begin($("serial")), limit = Number($("serial-limit").value);
  if (!Number.isInteger(limit) || limit < 1 || limit > LARGEST_LIMIT) return out.append(say("bad", "Refused 17", SENTENCES.capture[17].do));
  const library = await Library.open(module, bytes), list = new FrameList();
  const end = await each(out, library.frames(limit), bytes.length, (event) => {
    list.see(library, event);
    return event.place;
  });
  if (!end) return;
  out.append(frameVerdict(list, end));
  if (list.lines.length === MOST_LINES) out.append(el("p", {}, ...prose(`only the first ${shown(MOST_LINES)} lines are listed; the counts are of all`)));
  const view = pages(list.lines.length, PART, (i) => lineNode(list.lines[i]));
  out.append(view.node);
  view.go(0);
}
