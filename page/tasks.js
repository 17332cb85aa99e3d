// What is done beside the page where a file is long: in a worker, by name.
import { Library } from "./library.js";
import { readLog } from "./logs.js";

export const TASKS = {
  readLog: async (module, bytes) => {
    const read = readLog(bytes);
    for (const way of read.ways ?? []) way.longest = way.capture ? (await Library.open(module, way.capture)).longestPacket() : 0;
    return read;
  },
  judge: async (module, bytes, room, limit, report) => {
    const library = await Library.open(module, bytes);
    return { told: library.why(room, limit), added: library.add(report, limit) };
  },
  move: async (module, bytes, version, records) => (await Library.open(module, bytes)).move(version, records),
};
