// browser.mjs PICTURES [short]: opens the built page in headless Chromium at phone and laptop width, gives it files, holds what it says and
// saves to what is wanted, and writes pictures. short: without the files of 50 MB.
import fs from "node:fs";
import os from "node:os";
import path from "node:path";
import { spawnSync } from "node:child_process";
import { Chromium, sleep } from "./chromium.mjs";
import { writeFiles } from "./files.mjs";
import { BUILT, ROOT } from "./page.mjs";

const PHONE = [360, 780], LAPTOP = [1280, 800], PATIENCE = 300000, LONGEST_BLOCK = 1000;
const [pictures, short] = process.argv.slice(2), files = fs.mkdtempSync(path.join(os.tmpdir(), "page-files-"));
let held = 0, wrong = 0;
function hold(what, is, told = "") {
  held++;
  if (is) return;
  wrong++;
  console.log(`WRONG ${what} ${told}`);
}
const own = (name) => path.join(files, name), sample = (name) => path.join(ROOT, "samples", name);
const data = (name) => spawnSync("sh", ["-c", `ls -d crates/*/data/${name}`], { cwd: ROOT }).stdout.toString().trim();

// ---- one file given, and what the page must be like after it
const outText = (panel) => `document.querySelector("#${panel} .out").innerText.replace(/\\s+/g, " ")`;
async function give(tab, panel, wanted, ...chosen) {
  await tab.evaluate(`document.getElementById("tab-${panel}").click();
    clearInterval(window.beat); window.longest = 0; window.before = performance.now();
    window.beat = setInterval(() => { const now = performance.now(); window.longest = Math.max(window.longest, now - window.before); window.before = now; }, 5); 0`);
  const began = Date.now(), worked = await tab.cpu(), names = chosen.map((file) => path.basename(file)).join(" ");
  await tab.chooseFiles(`#${panel} input[type=file]`, chosen);
  await sleep(50);
  await tab.until(`!document.querySelector("#${panel} .out").dataset.busy && document.querySelector("#${panel} .out .say")`, PATIENCE);
  const took = Date.now() - began, block = Math.round(await tab.evaluate("window.longest")), said = await tab.evaluate(outText(panel));
  console.log(`${panel} ${names}: ${took} ms, longest block ${block} ms, processor ${Math.round(await tab.cpu() - worked)} ms: ${said.slice(0, 90)}`);
  for (const words of wanted) hold(`${panel} ${names} says "${words}"`, said.includes(words), said.slice(0, 400));
  hold(`${panel} ${names} blocks the page for less than ${LONGEST_BLOCK} ms`, block < LONGEST_BLOCK, block);
  hold(`${panel} ${names} is announced`, (await tab.evaluate(`document.getElementById("heard").textContent`)).trim() !== "");
}
const SMALL = `[...document.querySelectorAll("button, .button, select, input, summary")].filter((node) => node.checkVisibility()).map((node) => {
  const { width, height } = node.getBoundingClientRect(); return [node.textContent.slice(0, 20), Math.round(width), Math.round(height)];
}).filter(([, width, height]) => width < 48 || height < 48).join("; ")`;
// The least contrast of the text that is seen.
const CONTRAST = `(() => {
  const numbers = (colour) => colour.match(/[\\d.]+/g).map(Number), light = (colour) => {
    const [r, g, b] = numbers(colour).map((c) => (c /= 255) <= 0.03928 ? c / 12.92 : ((c + 0.055) / 1.055) ** 2.4);
    return 0.2126 * r + 0.7152 * g + 0.0722 * b;
  }, behind = (node) => { for (; node; node = node.parentElement) { const c = getComputedStyle(node).backgroundColor; if (numbers(c)[3] !== 0) return c; } return "rgb(255,255,255)"; };
  const seen = [...document.querySelectorAll("body *")].filter((n) => n.id !== "heard" && !n.disabled && n.checkVisibility() && [...n.childNodes].some((c) => c.nodeType === 3 && c.data.trim()));
  return seen.map((n) => { const [a, b] = [light(getComputedStyle(n).color), light(behind(n))]; return [(Math.max(a, b) + 0.05) / (Math.min(a, b) + 0.05), n.textContent.slice(0, 30)]; })
    .sort((a, b) => a[0] - b[0])[0];
})()`;
async function lookAt(tab, name) {
  for (const dark of [false, true]) {
    await tab.size(...PHONE, dark);
    const [least, text] = await tab.evaluate(CONTRAST);
    hold(`${name}${dark ? " dark" : ""}: contrast of text`, least >= 4.5, `${least} "${text}"`);
    await tab.picture(path.join(pictures, `${name}_phone${dark ? "_dark" : ""}.png`), 2400);
  }
  await tab.size(...PHONE);
  const over = await tab.evaluate("document.documentElement.scrollWidth - document.documentElement.clientWidth"), small = await tab.evaluate(SMALL);
  hold(`${name}: no sideways scrolling at ${PHONE[0]} px`, over <= 0, over);
  hold(`${name}: no target under 48 px`, small === "", small);
  await tab.size(...LAPTOP);
  await tab.picture(path.join(pictures, `${name}_laptop.png`), 2400);
  await tab.size(...PHONE);
}
async function look(tab, name, panel, wanted, ...chosen) {
  await give(tab, panel, wanted, ...chosen);
  await lookAt(tab, name);
}

// ---- saving
async function pressed(tab, panel, words) {
  await tab.evaluate(`[...document.querySelectorAll("#${panel} .out button")].find((b) => b.textContent.startsWith("${words}")).click()`);
}
async function saved(tab, panel, name) {
  const selector = `#${panel} .out a[download="${name}"]`, file = path.join(files, "saved", name);
  await tab.until(`!!document.querySelector('${selector}')`, PATIENCE);
  await tab.evaluate(`document.querySelector('${selector}').click()`);
  for (let n = 0; !fs.existsSync(file) && n < 200; n++) await sleep(50);
  await sleep(200);
  return fs.readFileSync(file);
}
const program = (name, input, ...words) => spawnSync(path.join(ROOT, "target/bin", name), words, { input, maxBuffer: 1 << 28 }).stdout;
async function trySaving(tab) {
  const outbox = fs.readFileSync(own("firing2000.bin"));
  await give(tab, "outbox", ["Whole: 2,000 records"], own("firing2000.bin"));
  await pressed(tab, "outbox", "Make a list");
  hold("the saved list is that of records", (await saved(tab, "outbox", "firing2000.bin.txt")).equals(program("records", outbox, "--payloads")));
  await pressed(tab, "outbox", "Move to version 01");
  hold("the saved file is that of move_outbox", (await saved(tab, "outbox", "firing2000.bin.01")).equals(fs.readFileSync(own("firing2000_01.bin"))));
  await give(tab, "outbox", ["The last record is cut short", "refused 41 at", "Save the"], own("cut.bin"));
  const cut = fs.readFileSync(own("cut.bin")), place = Number(/refused 41 at (\d+)/.exec(program("records", cut))[1]);
  hold("what is whole is saved", (await saved(tab, "outbox", "cut.bin.whole")).equals(cut.subarray(0, place)));
  await give(tab, "outbox", ["Whole: 1 record"], own("long_record.bin"));
  await pressed(tab, "outbox", "Move to version 01");
  await sleep(300);
  hold("a record that cannot be moved", (await tab.evaluate(outText("outbox"))).includes("refused 46 at 1"));
}

// ---- what a person does
async function tryHand(tab) {
  await tab.evaluate(`document.getElementById("tab-outbox").click(); const held = new DataTransfer(); held.items.add(new File([Uint8Array.of(1, 0, 3, 6, 65, 66)], "dropped.bin"));
    dispatchEvent(new DragEvent("drop", { dataTransfer: held, cancelable: true })); 0`);
  await sleep(300);
  hold("a file that is dropped", (await tab.evaluate(outText("outbox"))).includes("Whole: 1 record"));
  await tab.evaluate(`document.getElementById("tab-outbox").focus()`);
  for (const [key, id] of [["ArrowRight", "tab-radio"], ["End", "tab-serial"], ["ArrowRight", "tab-outbox"], ["ArrowLeft", "tab-serial"], ["Home", "tab-outbox"]]) {
    await tab.press(key);
    hold(`${key} chooses ${id}`, await tab.evaluate(`document.activeElement.id === "${id}" && document.activeElement.getAttribute("aria-selected") === "true"`));
  }
  for (const panel of ["outbox", "radio", "serial"]) {
    await tab.evaluate(`document.getElementById("tab-${panel}").click(); document.querySelector("#${panel} .sample").click()`);
    await tab.until(`!!document.querySelector("#${panel} .out .say")`, PATIENCE);
    const { nodes } = await tab.send("Accessibility.getFullAXTree");
    const nameless = nodes.filter((n) => !n.ignored && ["button", "tab", "tabpanel", "spinbutton", "combobox", "link", "progressbar"].includes(n.role?.value) && !n.name?.value);
    hold(`${panel}: each control has a name`, nameless.length === 0, JSON.stringify(nameless.map((n) => n.role.value)));
  }
  await tab.chooseFiles("#serial input[type=file]", [own("marks5.bin")]);
  await sleep(300);
  hold("a progress bar on a long file", await tab.evaluate(`!!document.querySelector("#serial progress")`));
  await give(tab, "serial", ["2 frames"], sample("classic.bin"));
  await sleep(1500);
  hold("a newer file ends the older", await tab.evaluate(`document.querySelectorAll("#serial .say").length`) === 1);
}
async function tryTwice(browser, tab) {
  const second = await browser.open(`file://${BUILT}`, ...LAPTOP);
  await give(tab, "outbox", ["Whole: 2,000 records"], own("firing2000.bin"));
  await give(second, "outbox", ["Whole: 1 record"], own("one.bin"));
  hold("two pages at a time", (await tab.evaluate(outText("outbox"))).includes("Whole: 2,000 records"));
  hold("nothing is stored", await second.evaluate(`document.cookie === "" && localStorage.length === 0 && sessionStorage.length === 0`));
  const blocked = await second.evaluate(`fetch("https://example.com/").then(() => false, () => true)`);
  hold("a request is forbidden", blocked);
  await second.send("Page.close");
  await tab.send("Page.bringToFront");
}
function tryHeard(browser) {
  const urls = browser.heard.filter((m) => m.method === "Network.requestWillBeSent").map((m) => m.params.request.url);
  const strange = urls.filter((url) => !url.startsWith("blob:") && url !== `file://${BUILT}` && url !== "https://example.com/");
  hold("no request", strange.length === 0, strange.join());
  const errors = browser.heard.filter((m) => m.method === "Runtime.exceptionThrown" || (m.method === "Log.entryAdded" && m.params.entry.level === "error"))
    .map((m) => m.params.entry?.text ?? m.params.exceptionDetails.exception?.description).filter((text) => !/Content Security Policy|example\.com/.test(text));
  hold("no error", errors.length === 0, errors.join());
}

// The two that stand in docs/.
async function keepPictures(tab) {
  await tab.size(...PHONE);
  await give(tab, "outbox", [], own("firing2000.bin"));
  const verdict = await tab.evaluate(`document.querySelector("#outbox .say").getBoundingClientRect().top + scrollY`);
  await tab.picture(path.join(pictures, "page_phone.png"), 900, verdict - 8);
  await tab.size(...LAPTOP);
  await give(tab, "radio", [], path.join(ROOT, data("evening.bin")));
  await tab.picture(path.join(pictures, "page_laptop.png"), 1130);
  await tab.size(...PHONE);
}
async function tryPanels(tab) {
  await look(tab, "one", "outbox", ["Whole: 1 record"], own("one.bin"));
  await look(tab, "sample", "outbox", ["Whole: 68 records"], sample("firing.bin"));
  await look(tab, "firing", "outbox", ["Whole: 2,000 records", "The firing"], own("firing2000.bin"));
  await look(tab, "cut", "outbox", ["The last record is cut short", "the disk was full"], own("cut.bin"));
  for (const [name, ...wanted] of [["zeros.bin", "A length there is no record's length", "refused 42 at 3511", "begins a new outbox"], ["stream.bin", "A record's stream is none of", "refused 43", "begins a new outbox"],
    ["empty.bin", "It is no outbox, or it is empty", "refused 40 at 0"], ["version.bin", "Whole, and nothing was kept yet"]]) await give(tab, "outbox", wanted, own(name));
  await look(tab, "unlawful", "radio", ["Unlawful at 23", "expected", "It has not as many bytes", "What the radio cost"], own("their.bin"));
  await look(tab, "radio", "radio", [" of 3 captures", "Bytes on the radio", "Where messages ended"], ...["evening.bin", "cut.bin", "night.bin"].map((name) => path.join(ROOT, data(name))));
  await look(tab, "btsnoop", "radio", ["The ATT_MTU is 247, so the room is 244", "Lawful"], own("phone.btsnoop"));
  for (const [name, ...wanted] of [["asked.bin", "The room in front is 20", "Unlawful at 23"], ["open.bin", "Lawful so far, and open", "6 bytes to come, next sequence 1"], ["half.bin", "Refused 41", "not copied whole"],
    ["hex.txt", "3 lines in base 16", "Lawful"], ["bad.txt", "Line 2 is no packet in base 16"], ["empty.bin", "Refused 40"]]) await give(tab, "radio", wanted, own(name));
  await look(tab, "classic", "serial", ["2 frames"], sample("classic.bin"));
  await look(tab, "serial", "serial", ["frames,", "refused 25", "the checksum does not agree", "Once in a night: nothing"], own("damaged_serial.bin"));
  await give(tab, "serial", ["0 frames, 0 refused"], own("empty.bin"));
}
async function tryLong(tab) {
  await give(tab, "outbox", ["It is no outbox", "refused 40 at 0"], own("rubbish50.bin"));
  await give(tab, "outbox", ["refused 4"], own("rubbish50_01.bin"));
  await give(tab, "outbox", ["Whole: 2,173,913 records"], own("records50.bin"));
  await tab.evaluate("window.longest = 0");
  await pressed(tab, "outbox", "Make a list");
  hold("the list of two million records", (await saved(tab, "outbox", "records50.bin.txt")).equals(program("records", fs.readFileSync(own("records50.bin")), "--payloads")));
  await pressed(tab, "outbox", "Move to version 01");
  await tab.until(`!!document.querySelector("#outbox a[download$='.01']")`, PATIENCE);
  const block = Math.round(await tab.evaluate("window.longest"));
  hold(`listing and moving two million records blocks the page for less than ${LONGEST_BLOCK} ms`, block < LONGEST_BLOCK, block);
  await give(tab, "radio", ["Refused 40"], own("rubbish50.bin"));
  await give(tab, "radio", ["Refused 4"], own("rubbish50_01.bin"));
  await give(tab, "radio", ["Lawful", "5,555,555"], own("packets50.bin"));
  await give(tab, "radio", ["A log in text may have 16 MB here"], own("text50.txt"));
  await give(tab, "serial", ["refused"], own("rubbish50.bin"));
  await give(tab, "serial", ["refused"], own("marks5.bin"));
}

fs.mkdirSync(pictures, { recursive: true });
fs.mkdirSync(own("saved"));
writeFiles(files, !short);
const browser = new Chromium("chromium");
try {
  const tab = await browser.open(`file://${BUILT}`, ...PHONE);
  await browser.send("Browser.setDownloadBehavior", { behavior: "allow", downloadPath: own("saved") });
  await tryPanels(tab);
  await keepPictures(tab);
  await trySaving(tab);
  await tryHand(tab);
  await tryTwice(browser, tab);
  if (!short) await tryLong(tab);
  tryHeard(browser);
} finally {
  await browser.close();
  fs.rmSync(files, { recursive: true });
}
console.log(`browser: ${held} held, ${wrong} wrong; pictures in ${pictures}`);
process.exit(wrong ? 1 : 0);
