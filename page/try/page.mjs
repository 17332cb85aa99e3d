// The built page, taken apart: its module, and the script that a worker gets too.
import fs from "node:fs";
import os from "node:os";
import path from "node:path";

export const ROOT = path.resolve(new URL("../..", import.meta.url).pathname);
export const BUILT = path.join(ROOT, "target/page/pitokaenge.html");
const NAMES = ["Library", "TASKS", "SENTENCES", "captureOf", "emptyReport", "endLine", "frameLine", "hexOf", "lawfulLine", "readLog", "recordLine",
  "reportLines", "whyLines"];

export async function builtPage() {
  const html = fs.readFileSync(BUILT, "utf8"), core = /<script id="core">\n([\s\S]*?)<\/script>/.exec(html)[1];
  const wasm = Buffer.from(/const MODULE = "([^"]*)"/.exec(html)[1], "base64");
  const folder = fs.mkdtempSync(path.join(os.tmpdir(), "page-")), file = path.join(folder, "core.mjs");
  fs.writeFileSync(file, `${core}\nexport { ${NAMES.join(", ")} };\n`);
  const checksum = /<meta name="module" content="(\w+)">/.exec(html)[1];
  return { ...await import(file), html, wasm, checksum, folder, module: await WebAssembly.compile(wasm) };
}
