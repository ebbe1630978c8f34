// Programs of agents in a worker: what a program sends after it heard some lines and was woken. Each agent has one, and a
// search starts more, for other histories.
"use strict";
const WAKE = "wake", GONE = '{"ok":"gone"}';
const FINAL = /^\{("no":"(enter|key|taken)"|"ok":"(noted|bye|over)")\}$/;
// how often a loop goes round between two replies, how many lines wait for a reply, and how many characters are kept of
// what a program prints
const ROUNDS = 1e6, MOST_LINES = 2000, MOST_PRINTED = 20000;
class NoClock extends Error {}
class Endless extends Error {}
class Exit extends Error {}

// files of a program by the addresses under which they were loaded, and their functions
const loaded = new Map(), modules = new Map();
self.arenaModules = {};
let rounds = 0, atLoop = 0;
self.arenaLoop = (line) => {
  atLoop = line;
  if (++rounds > ROUNDS) throw new Endless("this loop does not end: it goes round and round, and sends no line");
  return true;
};
const HIDDEN = ["self", "globalThis", "fetch", "XMLHttpRequest", "WebSocket", "EventSource", "importScripts", "postMessage", "indexedDB",
  "caches", "Worker", "Date", "performance", "crypto", "queueMicrotask", "requestAnimationFrame", "onmessage", "arenaModules"];

function loadJs(files) {
  for (const [name, text] of Object.entries(files)) {
    if (!name.endsWith(".js")) continue;
    const head = `self.arenaModules[${JSON.stringify(name)}] = function (require, module, exports, process, console, Math, setTimeout, clearTimeout, setInterval, setImmediate, ${HIDDEN}) { "use strict"; `;
    const address = URL.createObjectURL(new Blob([head, guarded(text), "\n};"], { type: "text/javascript" }));
    loaded.set(address, name);
    importScripts(address);
  }
}
// the place in a file of the program at which something was called: the innermost one that is not of the client
function placeIn(stack, isOwn = (name) => name !== "client.js") {
  const found = [...stack.matchAll(/(blob:[^\s)]+?):(\d+):(\d+)/g)]
    .filter(([, address]) => loaded.has(address)).map(([, address, line]) => ({ file: loaded.get(address), line: Number(line) }));
  return found.find((it) => isOwn(it.file)) || found[0] || null;
}

const nextTurn = (() => {
  const channel = new MessageChannel(), waits = [];
  channel.port1.onmessage = () => waits.shift()();
  return () => new Promise((done) => { waits.push(done); channel.port2.postMessage(0); });
})();
let current = null;
self.addEventListener("unhandledrejection", (event) => {
  event.preventDefault();
  if (current) current.fail(event.reason);
});

class JsProgram {
  constructor(main, words, options) {
    Object.assign(this, {
      main, words, options, inbox: [], sent: [], printed: "", fault: null, isClosed: false, isListening: false, isOver: false, status: 0,
      timers: [], waits: null, hasBegun: false, random: chance(options.seed),
    });
  }
  anew() { return new JsProgram(this.main, this.words, this.options); }

  // has the program hear these lines too, and returns what it has sent and its state
  async told(more) {
    current = this;
    rounds = 0;
    if (!this.hasBegun) {
      this.hasBegun = true;
      try { this.load(this.main); } catch (why) { this.fail(why); }
      await this.settled();
    }
    for (const it of more) {
      if (this.fault) break;
      rounds = 0;
      if (it === WAKE) for (const timer of this.timers.splice(0)) this.guard(timer);
      else {
        this.inbox.push(it);
        this.isOver = this.isOver || FINAL.test(it);
        this.deliver();
      }
      // what comes of a wake is over before it is told more
      if (it === WAKE) await this.settled();
    }
    if (more.length) await this.settled();
    current = null;
    return {
      sent: this.sent, printed: this.printed, fault: this.fault, isClosed: this.isClosed, isAsleep: this.timers.length > 0,
      hangs: !this.isListening && !this.isClosed && this.fault === null && !this.timers.length,
    };
  }

  async settled() {
    await nextTurn();
    // a rejection that nobody takes is told a little later
    if (this.isListening || this.fault !== null) return;
    await nextTurn();
    if (!this.isClosed) await new Promise((done) => { self.setTimeout(done, 0); });
  }

  guard(does) { try { does(); } catch (why) { this.fail(why); } }
  fail(why) {
    if (this.fault !== null || why instanceof Exit) return;
    const isError = why instanceof Error, stack = isError ? String(why.stack) : "";
    const place = why instanceof Endless ? { file: this.fileOfLoop(stack), line: atLoop } : placeIn(stack);
    this.fault = { said: isError ? `${why.name === "Error" || why instanceof NoClock || why instanceof Endless ? "" : `${why.name}: `}${why.message}` : String(why), place };
  }
  fileOfLoop(stack) { return (placeIn(stack, () => true) || { file: this.main }).file; }

  load(name) {
    const found = this.loadedModules || (this.loadedModules = new Map());
    const make = self.arenaModules[name];
    if (!make) throw new Error(`there is no module ${name}`);
    const module = { exports: {} };
    found.set(name, module);
    const options = this.options;
    const math = Object.defineProperties({}, Object.getOwnPropertyDescriptors(Math));
    math.random = options.isExplored
      ? () => { throw new NoClock("Math.random: every schedule can only be tried of agents that do the same when they are told the same"); }
      : this.random;
    const print = (...items) => { if (this.printed.length < MOST_PRINTED) this.printed += `${items.map((it) => typeof it === "string" ? it : JSON.stringify(it)).join(" ")}\n`; };
    const process = {
      argv: ["node", name, ...this.words], env: {}, exit: (status) => { this.exitCode(status); throw new Exit(); },
      stderr: { write: (text) => print(String(text)) }, stdout: { write: (text) => print(String(text)) },
    };
    Object.defineProperty(process, "exitCode", { set: (status) => this.exitCode(status), get: () => this.status });
    make(
      (other) => this.required(other, name), module, module.exports, process,
      { log: print, error: print, warn: print, info: print, debug: print }, math,
      (does) => { this.timers.push(does); return this.timers.length; }, () => {}, () => { throw new NoClock("setInterval: there is no clock here"); },
      (does) => { this.timers.push(does); },
    );
    return module.exports;
  }
  exitCode(status) {
    this.status = status;
    if (status) this.fault = this.fault || { said: `has ended with status ${status}${this.printed ? `: ${this.printed.trim().split("\n").pop()}` : ""}`, place: null };
    else this.isClosed = true;
  }
  required(name) {
    const plain = name.replace(/^node:/, "").replace(/^\.\//, "");
    if (plain === "net") return { connect: (options, done) => this.connected(typeof options === "function" ? options : done) };
    if (plain === "readline") return { createInterface: () => ({ [Symbol.asyncIterator]: () => ({ next: () => this.nextLine() }), close() {} }) };
    const file = plain.endsWith(".js") ? plain : `${plain}.js`, found = this.loadedModules.get(file);
    if (found) return found.exports;
    if (!self.arenaModules[file]) throw new Error(`there is no module ${name} here: agents have the client and their own files`);
    return this.load(file);
  }
  connected(done) {
    const socket = {
      write: (text) => this.write(String(text)), destroy: () => { this.isClosed = true; }, end: () => { this.isClosed = true; },
      on() { return socket; }, once() { return socket; }, setNoDelay() { return socket; }, setEncoding() { return socket; },
    };
    if (done) Promise.resolve().then(() => this.guard(done));
    return socket;
  }
  write(text) {
    const place = placeIn(new Error().stack);
    for (const line of text.split("\n").filter((it) => it !== "")) this.sent.push({ line, place });
    if (this.sent.length > MOST_LINES) throw new Endless("this program sends line after line, and reads no reply");
  }
  nextLine() {
    return new Promise((done) => {
      this.waits = done;
      this.deliver();
    });
  }
  deliver() {
    if (!this.waits) return;
    if (this.inbox.length || this.isOver) {
      const done = this.waits;
      this.waits = null;
      this.isListening = false;
      rounds = 0;
      done(this.inbox.length ? { value: this.inbox.shift(), done: false } : { value: undefined, done: true });
    } else this.isListening = true;
  }
}

// A module by itself, in the browser's own engine: a command for whose reply it would have to wait ends this run of it.
class Waits extends Error {}
class ModuleProgram {
  constructor(module, words, options) {
    Object.assign(this, { module, words, options, history: [] });
  }
  anew() { return new ModuleProgram(this.module, this.words, this.options); }
  async told(more) {
    this.history.push(...more);
    const sent = [], lines = this.history.slice();
    let here = { ports: 0, from: null, board: "" }, board = new Uint8Array(0), instance, fault = null, isAsleep = false;
    const memory = () => new Uint8Array(instance.exports.memory.buffer);
    const text = (at, length) => new TextDecoder("utf-8", { fatal: true }).decode(memory().subarray(at >>> 0, (at >>> 0) + (length >>> 0)));
    const WHY = { agent: -1, outside: -2, twice: -3, ended: -4, spent: -5, away: -6, line: -7, port: -8, long: -9 };
    const CODES = { here: 1, written: 2, changed: 3, noted: 5, bye: 6, over: 7 };
    const answer = () => {
      if (!lines.length || lines[0] === WAKE) throw new Waits();
      const reply = JSON.parse(lines.shift());
      if (reply.no !== undefined) return WHY[reply.no] || -7;
      if (reply.ok === "here") here = reply;
      if (reply.board !== undefined) board = new TextEncoder().encode(reply.board);
      return CODES[reply.ok] || 4;
    };
    const says = (command) => { sent.push({ line: JSON.stringify(command), place: null }); return answer(); };
    const arena = {
      enter: () => says({ do: "enter", key: this.options.key }), look: () => says({ do: "look" }), leave: () => says({ do: "leave" }),
      depart: (port) => { const gone = says({ do: "depart", port: port >>> 0 }); return gone === 4 ? answer() : gone; },
      accuse: (port) => says({ do: "accuse", port: port >>> 0 }),
      write: (expect, length, put, more) => says({ do: "write", expect: text(expect, length), put: text(put, more) }),
      sleep: () => {
        if (lines[0] !== WAKE) { isAsleep = true; throw new Waits(); }
        lines.shift();
        return 0;
      },
      ports: () => here.ports, came: () => here.from === null ? -1 : here.from, argument: (number) => Number(this.words[number >>> 0]) | 0,
      board: (to, room) => { memory().set(board.subarray(0, room >>> 0), to >>> 0); return board.length; },
    };
    let isClosed = false;
    try {
      instance = new WebAssembly.Instance(this.module, { arena });
      instance.exports.run();
      isClosed = true;
    } catch (why) {
      if (!(why instanceof Waits)) fault = { said: `${why.name}: ${why.message}`, place: null };
    }
    return { sent, printed: "", fault, isClosed, isAsleep, hangs: false };
  }
}
