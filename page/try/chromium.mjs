// Headless Chromium, driven over a pipe by its DevTools protocol.
import fs from "node:fs";
import os from "node:os";
import path from "node:path";
import { spawn } from "node:child_process";

export const sleep = (ms) => new Promise((go) => setTimeout(go, ms));

export class Chromium {
  waiting = new Map();
  heard = [];
  last = 0;
  text = "";
  constructor(program) {
    this.profile = fs.mkdtempSync(path.join(os.tmpdir(), "chromium-"));
    const words = ["--headless=new", "--no-sandbox", "--disable-gpu", "--no-first-run", "--remote-debugging-pipe", `--user-data-dir=${this.profile}`, "about:blank"];
    this.process = spawn(program, words, { stdio: ["ignore", "ignore", "ignore", "pipe", "pipe"] });
    this.process.stdio[4].on("data", (data) => this.hear(data.toString()));
  }
  hear(data) {
    const messages = (this.text + data).split("\0");
    this.text = messages.pop();
    for (const message of messages.map((text) => JSON.parse(text))) {
      const { done, fail } = this.waiting.get(message.id) ?? {};
      if (!message.id) this.heard.push(message);
      else if (message.error) fail(new Error(message.error.message));
      else done(message.result);
      this.waiting.delete(message.id);
    }
  }
  send(method, params = {}, sessionId) {
    const id = ++this.last;
    this.process.stdio[3].write(`${JSON.stringify({ id, method, params, sessionId })}\0`);
    return new Promise((done, fail) => this.waiting.set(id, { done, fail }));
  }
  async open(url, width, height) {
    const { targetId } = await this.send("Target.createTarget", { url: "about:blank" });
    const { sessionId } = await this.send("Target.attachToTarget", { targetId, flatten: true });
    const tab = new Tab(this, sessionId);
    for (const domain of ["Page", "DOM", "Runtime", "Network", "Log", "Accessibility"]) await tab.send(`${domain}.enable`);
    await tab.send("Performance.enable", { timeDomain: "threadTicks" });
    await tab.size(width, height);
    await tab.send("Page.navigate", { url });
    await tab.until("document.documentElement?.dataset.ready", 30000);
    return tab;
  }
  async close() {
    this.process.kill();
    await new Promise((gone) => this.process.on("exit", gone));
    fs.rmSync(this.profile, { recursive: true, force: true, maxRetries: 5 });
  }
}
export class Tab {
  constructor(browser, session) {
    this.browser = browser;
    this.session = session;
  }
  send(method, params) {
    return this.browser.send(method, params, this.session);
  }
  async evaluate(expression) {
    const { result, exceptionDetails } = await this.send("Runtime.evaluate", { expression, awaitPromise: true, returnByValue: true });
    if (exceptionDetails) throw new Error(exceptionDetails.exception?.description);
    return result.value;
  }
  // The processor time of the page's own thread so far, in ms: it does not grow while the page waits for a processor.
  async cpu() {
    const { metrics } = await this.send("Performance.getMetrics");
    return 1000 * metrics.find(({ name }) => name === "TaskDuration").value;
  }
  async until(expression, most) {
    for (const began = Date.now(); !await this.evaluate(expression); await sleep(30))
      if (Date.now() - began > most) throw new Error(`not within ${most} ms: ${expression}`);
  }
  async size(width, height, dark = false) {
    await this.send("Emulation.setDeviceMetricsOverride", { width, height, deviceScaleFactor: width < 500 ? 2 : 1, mobile: width < 500 });
    await this.send("Emulation.setEmulatedMedia", { features: [{ name: "prefers-color-scheme", value: dark ? "dark" : "light" }] });
    await sleep(50);
  }
  async picture(file, most, from = 0) {
    const { cssContentSize: { width, height } } = await this.send("Page.getLayoutMetrics");
    const clip = { x: 0, y: from, width, height: Math.min(height - from, most), scale: 1 };
    const { data } = await this.send("Page.captureScreenshot", { format: "png", captureBeyondViewport: true, clip });
    fs.writeFileSync(file, Buffer.from(data, "base64"));
  }
  async chooseFiles(selector, files) {
    const { root } = await this.send("DOM.getDocument"), { nodeId } = await this.send("DOM.querySelector", { nodeId: root.nodeId, selector });
    await this.send("DOM.setFileInputFiles", { nodeId, files });
  }
  async press(key) {
    for (const type of ["keyDown", "keyUp"]) await this.send("Input.dispatchKeyEvent", { type, key, code: key });
  }
}
