// The program `arena` under node, as its WebAssembly module: node run.js MODULE WORD ..
"use strict";
const fs = require("node:fs");
const path = require("node:path");
const { Arena } = require("../../tools/play/arena.js");

const [file, ...words] = process.argv.slice(2);
const read = (room) => {
  const buffer = Buffer.alloc(room);
  for (;;) {
    try {
      return buffer.subarray(0, fs.readSync(0, buffer, 0, room, null));
    } catch (fault) {
      if (fault.code === "EOF") return buffer.subarray(0, 0);
      if (fault.code !== "EAGAIN") throw fault;
    }
  }
};
// how many bytes were taken: none where no more can be
const write = (stream, bytes) => {
  for (;;) {
    try { return fs.writeSync(stream, bytes); } catch (fault) { if (fault.code !== "EAGAIN") return 0; }
  }
};
const arena = new Arena(new WebAssembly.Module(fs.readFileSync(file)), { read, write });

// the files of the working folder, by their names from there
const before = new Map();
function take(folder) {
  for (const entry of fs.readdirSync(folder || ".", { withFileTypes: true })) {
    const name = path.join(folder, entry.name);
    if (entry.isDirectory()) { arena.put(`${name}/`, new Uint8Array(0)); take(name); }
    else if (entry.isFile()) before.set(name, fs.readFileSync(name));
  }
}
take("");
// files of elsewhere, by the words that name them
for (const word of words) {
  for (const name of [word, word.split(":")[0], word.slice(word.indexOf("=") + 1), word.slice(word.indexOf("=") + 1).split(":")[0]]) {
    if (!before.has(name) && fs.existsSync(name) && fs.statSync(name).isFile()) arena.put(name, fs.readFileSync(name));
  }
}
for (const [name, content] of before) arena.put(name, content);
const status = arena.run(words);
const after = new Set(arena.names());
for (const name of before.keys()) if (!after.has(name)) fs.unlinkSync(name);
for (const name of after) {
  if (name.endsWith("/")) continue;
  if (name.startsWith("/")) continue;
  const content = Buffer.from(arena.get(name));
  if (!before.has(name) || !before.get(name).equals(content)) fs.writeFileSync(name, content);
}
process.exitCode = status;
