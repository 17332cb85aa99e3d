// Runs a driver that is a WebAssembly module: its one import prints.
import fs from "fs";
let memory;
const put = (at) => {
  const bytes = new Uint8Array(memory.buffer);
  process.stdout.write(Buffer.from(bytes.slice(at, bytes.indexOf(0, at))).toString());
};
const { instance } = await WebAssembly.instantiate(fs.readFileSync(process.argv[2]), { env: { put } });
memory = instance.exports.memory;
(instance.exports.__main_void ?? instance.exports.__original_main ?? instance.exports.main)();
