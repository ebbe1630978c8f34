// What agents that run WebAssembly modules do next, by node's own WebAssembly.
//
// Reads lines of JSON: {"file":PATH,"arguments":[N,..],"history":[O,..]}, where each O is
// a reply as it stands in a replay, or "woke". Writes for each the next step as a line of
// JSON: a command as it stands in a replay, {"do":"sleep"}, {"do":"stop"} or {"do":"fail"}.
// A line null forgets the files that were read.
"use strict";
const fs = require("node:fs");
const readline = require("node:readline");

const KINDS = { here: 1, written: 2, changed: 3, gone: 4, noted: 5, bye: 6, over: 7 };
const REFUSALS = ["agent", "outside", "twice", "ended", "spent", "away", "line", "port", "long"];
const MAX_TEXT = 65536;
const MAX_PORT = 65535;
const modules = new Map();

class Step extends Error {
  constructor(step) { super("the history ends"); this.step = step; }
}

class Agent {
  constructor(numbers, history) {
    this.numbers = numbers;
    this.history = [...history];
    this.forget();
  }

  // a module reads of the last reply until it says its next command
  forget() { this.ports = 0; this.came = 0; this.board = Buffer.alloc(0); }

  // the number that a command gives; the run ends where the history does
  observe(step) {
    this.forget();
    if (!this.history.length) throw new Step(step);
    const reply = this.history.shift();
    if (reply === "woke") return 0;
    if ("no" in reply) return -1 - REFUSALS.indexOf(reply.no);
    if (reply.ok === "gone") return this.observe({ do: "stop" });
    if (reply.ok === "here") {
      this.ports = reply.ports;
      this.came = reply.from === null ? -1 : reply.from;
    }
    if ("board" in reply) this.board = Buffer.from(reply.board);
    return KINDS[reply.ok];
  }

  text(at, count) {
    const room = this.memory.buffer.byteLength;
    if (count >>> 0 > MAX_TEXT || (at >>> 0) + (count >>> 0) > room) throw new Step({ do: "fail" });
    try {
      return new TextDecoder("utf-8", { fatal: true, ignoreBOM: true })
        .decode(new Uint8Array(this.memory.buffer, at >>> 0, count >>> 0).slice());
    } catch (fault) { throw new Step({ do: "fail" }); }
  }

  port(name, number) {
    if (number >>> 0 > MAX_PORT) throw new Step({ do: "fail" });
    return this.observe({ do: name, port: number >>> 0 });
  }

  imports() {
    return {
      enter: () => this.observe({ do: "enter" }),
      look: () => this.observe({ do: "look" }),
      leave: () => this.observe({ do: "leave" }),
      sleep: () => this.observe({ do: "sleep" }),
      depart: (port) => this.port("depart", port),
      accuse: (port) => this.port("accuse", port),
      write: (expect, expectLength, put, putLength) => {
        const first = this.text(expect, expectLength);
        return this.observe({ do: "write", expect: first, put: this.text(put, putLength) });
      },
      ports: () => this.ports,
      came: () => this.came,
      board: (at, room) => {
        const count = Math.min(room >>> 0, this.board.length);
        if ((at >>> 0) + count > this.memory.buffer.byteLength) throw new WebAssembly.RuntimeError("out of bounds");
        this.board.copy(Buffer.from(this.memory.buffer), at >>> 0, 0, count);
        return this.board.length;
      },
      argument: (number) => this.numbers[number >>> 0] || 0,
    };
  }
}

function step({ file, arguments: numbers, history }) {
  if (!modules.has(file)) modules.set(file, new WebAssembly.Module(fs.readFileSync(file)));
  const agent = new Agent(numbers, history);
  try {
    const run = new WebAssembly.Instance(modules.get(file), { arena: agent.imports() });
    agent.memory = run.exports.memory;
    run.exports.run();
    return { do: "stop" };
  } catch (fault) {
    if (fault instanceof Step) return fault.step;
    return { do: "fail" };
  }
}

readline.createInterface({ input: process.stdin }).on("line", (line) => {
  const question = JSON.parse(line);
  if (question === null) modules.clear();
  else process.stdout.write(`${JSON.stringify(step(question))}\n`);
});
