// The program `arena` as a WebAssembly module: it takes words, files and input, and returns a status, output and files.
"use strict";
const KEEP = 1 << 18;

class Arena {
  // `read(room)` answers some bytes of input, at most so many, and none at its end, or a promise of them;
  // `write(stream, bytes)` takes output, and may answer how many bytes of it
  constructor(module, { read, write }) {
    this.read = read;
    this.waits = null;
    this.given = null;
    this.exports = new WebAssembly.Instance(module, {
      host: {
        read: (at, room) => this.reads(at >>> 0, room >>> 0),
        write: (stream, at, length) => {
          const taken = write(stream, this.bytes(at, length).slice());
          return taken === undefined ? length : taken;
        },
      },
    }).exports;
    this.kept = null;
  }

  bytes(at, length) { return new Uint8Array(this.exports.memory.buffer, at >>> 0, length >>> 0); }

  // a read that has to wait leaves the program, which goes on once there is input (binaryen's asyncify)
  reads(at, room) {
    const isBack = this.given !== null;
    if (isBack) this.exports.asyncify_stop_rewind();
    const given = isBack ? this.given : this.read(room);
    this.given = null;
    if (given instanceof Promise) {
      this.waits = given;
      this.exports.asyncify_start_unwind(this.kept);
      return 0;
    }
    this.bytes(at, given.length).set(given);
    return given.length;
  }

  give(which, given) {
    const at = this.exports.room(which, given.length) >>> 0;
    this.bytes(at, given.length).set(given);
    return at;
  }

  name(text) { this.give(0, new TextEncoder().encode(text)); }

  put(name, content) {
    this.name(name);
    this.give(1, typeof content === "string" ? new TextEncoder().encode(content) : content);
    this.exports.put();
  }

  got(length) { return length < 0 ? null : this.bytes(this.exports.got(), length).slice(); }

  get(name) {
    this.name(name);
    return this.got(this.exports.get());
  }

  names() { return new TextDecoder().decode(this.got(this.exports.names())).split("\n").slice(0, -1); }

  remove(name) {
    this.name(name);
    this.exports.remove();
  }

  // runs a command whose reads never wait
  run(words) {
    this.name(words.join("\0"));
    return this.exports.arena();
  }

  // runs a command whose reads may answer promises
  async runAsync(words) {
    this.kept = this.exports.room(2, KEEP) >>> 0;
    new Uint32Array(this.exports.memory.buffer, this.kept, 2).set([this.kept + 8, this.kept + KEEP]);
    let status = this.run(words);
    while (this.waits) {
      this.exports.asyncify_stop_unwind();
      this.given = await this.waits;
      this.waits = null;
      this.exports.asyncify_start_rewind(this.kept);
      status = this.exports.arena();
    }
    return status;
  }
}
if (typeof module !== "undefined") module.exports = { Arena };
