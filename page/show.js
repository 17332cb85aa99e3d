// What the three panels share: elements, a long list in parts, work that lets the page go on.
import { TASKS } from "./tasks.js";

// A file above this is read with a progress bar, and judged beside the page.
export const LONG = 1 << 20;
const REST = 30;

export const $ = (id) => document.getElementById(id);
export const shown = (n) => n.toLocaleString("en");
export const plural = (n, word) => `${shown(n)} ${word}${n === 1 ? "" : "s"}`;
export const bytesOf = (base64) => Uint8Array.from(atob(base64), (c) => c.charCodeAt(0));
export const module = await WebAssembly.compile(bytesOf(MODULE));

export function el(tag, attributes, ...children) {
  const node = document.createElement(tag);
  for (const [name, value] of Object.entries(attributes ?? {})) {
    if (name.startsWith("on")) node.addEventListener(name.slice(2), value);
    else node.setAttribute(name, value);
  }
  node.append(...children.filter((child) => child || child === 0));
  return node;
}
// A sentence of the table, with its beginning and its end, and what stands in backticks as code.
export function prose(text) {
  const sentence = text[0].toUpperCase() + text.slice(1) + (/[.?!]$/.test(text) ? "" : ".");
  return sentence.split("`").map((part, i) => i % 2 ? el("code", {}, part) : part);
}
export function say(kind, head, ...parts) {
  $("heard").append(` ${head}. `);
  const paragraph = (part) => typeof part === "string" ? el("p", {}, ...prose(part)) : part;
  return el("div", { class: `say ${kind}` }, el("b", {}, head), ...parts.filter(Boolean).map(paragraph));
}
export function saveLink(words, name, parts, main = false) {
  const href = URL.createObjectURL(new Blob(parts, { type: "application/octet-stream" }));
  return el("a", { class: main ? "button main" : "button", download: name, href }, words);
}
export const progressBar = (words, total) => total ? el("progress", { max: total, value: 0, "aria-label": words }) : el("progress", { "aria-label": words });
const rest = () => new Promise((go) => setTimeout(go));

// Empties a panel's place for answers, and numbers the run: an older one that still goes on ends.
export function begin(panel) {
  const out = panel.querySelector(".out");
  out.run = (out.run ?? 0) + 1;
  out.worker?.terminate();
  out.replaceChildren();
  $("heard").textContent = "";
  return out;
}
// Hands over what a generator gives, and lets the page go on in between. Returns what the generator returns, or null where a newer run
// has begun. `see` returns how far it is.
export async function each(out, generator, total, see) {
  const run = out.run, bar = progressBar("read so far", total);
  if (total > LONG) out.append(bar);
  for (let until = performance.now() + REST; ;) {
    const { value, done } = generator.next();
    if (done) {
      bar.remove();
      return value;
    }
    const far = see(value);
    if (performance.now() < until) continue;
    bar.value = far;
    await rest();
    if (out.run !== run) return null;
    until = performance.now() + REST;
  }
}
// Does a task, of a long file beside the page; where no worker can be had, in the page itself.
export function beside(out, bytes, task, ...asked) {
  const here = () => TASKS[task](module, bytes, ...asked);
  if (bytes.length <= LONG) return here();
  const tail = "onmessage = async ({ data: [task, ...asked] }) => postMessage(await TASKS[task](...asked));";
  const address = URL.createObjectURL(new Blob([$("core").textContent, tail])), bar = progressBar("working");
  out.append(bar);
  return new Promise((done) => {
    const worker = out.worker = new Worker(address);
    const ended = (answer) => {
      worker.terminate();
      URL.revokeObjectURL(address);
      bar.remove();
      done(answer);
    };
    worker.onmessage = ({ data }) => ended(data);
    worker.onerror = worker.onmessageerror = () => ended(here());
    worker.postMessage([task, module, bytes, ...asked]);
  }).catch(here);
}
// A list in parts of so many items, `line` making one of them; `moved` is told the part that is shown.
export function pages(total, size, line, moved = () => {}) {
  const list = el("ol", { class: "list" }), where = el("span", { "aria-live": "polite" }), last = Math.max(0, Math.ceil(total / size) - 1);
  let now = 0;
  const back = el("button", { onclick: () => go(now - 1) }, "‹ Earlier"), on = el("button", { onclick: () => go(now + 1) }, "Later ›");
  function go(part) {
    now = Math.min(last, Math.max(0, part));
    const from = now * size, to = Math.min(total, from + size);
    list.replaceChildren(...Array.from({ length: to - from }, (_, i) => line(from + i)));
    where.textContent = `${shown(from + 1)} to ${shown(to)} of ${shown(total)}`;
    back.disabled = now === 0;
    on.disabled = now === last;
    moved(now);
  }
  return { node: el("div", {}, last > 0 && el("div", { class: "row" }, back, on, where), total > 0 && list), go };
}
export const item = (head, what, small, kind = "") =>
  el("li", {}, el("span", {}, head), el("span", { class: `what ${kind}` }, what), el("small", {}, small));
export function payloadNode({ kind, words, more }) {
  if (kind === "empty") return "(empty)";
  return el("bdi", { class: kind === "bytes" ? "hex" : "" }, words + (more ? ` … and ${plural(more, "byte")} more` : ""));
}
