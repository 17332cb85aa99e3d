// Files, tabs and fields.
import { Library } from "./library.js";
import { showOutbox } from "./outbox.js";
import { readCaptures, showRadio } from "./radio.js";
import { showSerial } from "./serial.js";
import { $, LONG, begin, bytesOf, module, plural, progressBar, say, shown } from "./show.js";

const LARGEST_FILE = 256 << 20, STEP = 4 << 20;
let captures = null, serial = null;

const PANELS = {
  outbox: async ([{ bytes, name }]) => showOutbox(bytes, name),
  radio: async (files) => {
    const read = await readCaptures(files);
    if (read) await showRadio(captures = read);
  },
  serial: async ([{ bytes }]) => showSerial(serial = bytes),
};
async function guarded(name, work) {
  try {
    await work();
  } catch (error) {
    const words = error instanceof RangeError ? "This device has not enough memory for it" : String(error);
    begin($(name)).append(say("bad", "This file could not be shown", words));
  }
}
async function readFile(out, file) {
  const bytes = new Uint8Array(file.size), bar = progressBar("reading", file.size);
  if (file.size > LONG) out.append(bar);
  for (let at = 0; at < file.size; at += STEP) {
    bytes.set(new Uint8Array(await file.slice(at, at + STEP).arrayBuffer()), at);
    bar.value = at;
  }
  bar.remove();
  return { name: file.name, bytes };
}
async function take(name, files) {
  const list = [...files], big = list.find((file) => file.size > LARGEST_FILE);
  if (!list.length) return;
  const out = begin($(name)), run = out.run;
  if (big) return out.append(say("bad", "Too large for this page", `${big.name} has ${plural(big.size, "byte")}; this page takes ${shown(LARGEST_FILE)}. The programs take more, on a laptop`));
  out.dataset.busy = "yes";
  await guarded(name, async () => {
    const read = await Promise.all(list.map((file) => readFile(out, file)));
    if (out.run === run) await PANELS[name](read);
  });
  delete out.dataset.busy;
}

// ---- tabs
const tabs = [...document.querySelectorAll("[role=tab]")], panelOf = (tab) => tab.getAttribute("aria-controls");
function choose(tab) {
  for (const each of tabs) {
    each.setAttribute("aria-selected", each === tab);
    each.tabIndex = each === tab ? 0 : -1;
    $(panelOf(each)).hidden = each !== tab;
  }
}
function byKey(event, i) {
  const to = { ArrowRight: i + 1, ArrowLeft: i - 1, Home: 0, End: tabs.length - 1 }[event.key];
  if (to === undefined) return;
  const next = tabs[(to + tabs.length) % tabs.length];
  event.preventDefault();
  choose(next);
  next.focus();
}
for (const [i, tab] of tabs.entries()) {
  tab.addEventListener("click", () => choose(tab));
  tab.addEventListener("keydown", (event) => byKey(event, i));
}

// ---- files and fields
for (const name in PANELS) {
  const input = $(name).querySelector("input[type=file]"), [file, base64] = SAMPLES[name];
  input.addEventListener("change", async () => {
    await take(name, input.files);
    input.value = "";
  });
  $(name).querySelector(".sample").addEventListener("click", () => guarded(name, () => PANELS[name]([{ name: file, bytes: bytesOf(base64) }])));
}
for (const id of ["room", "limit"]) $(id).addEventListener("change", () => captures && guarded("radio", () => showRadio(captures)));
$("serial-limit").addEventListener("change", () => serial && guarded("serial", () => showSerial(serial)));
addEventListener("dragover", (event) => {
  event.preventDefault();
  document.body.classList.add("over");
});
addEventListener("dragleave", () => document.body.classList.remove("over"));
addEventListener("drop", (event) => {
  event.preventDefault();
  document.body.classList.remove("over");
  take(panelOf(tabs.find((tab) => tab.tabIndex === 0)), event.dataTransfer.files);
});
$("version").textContent = (await Library.open(module, new Uint8Array(0))).version();
choose(tabs[0]);
$("old").remove();
document.documentElement.dataset.ready = "yes";
