// Tasks in a worker of their own, which is ended if its program says nothing for too long.
"use strict";
// The worker is watched in ticks of the page's own clock: a machine that is busy with something else makes both late.
const TICK = 100, MOST_TICKS = 15, MOST_FIRST_TICKS = 300;
let module = null, worker = null;

async function unpackedBytes(base64, format) {
  const bytes = Uint8Array.from(atob(base64), (letter) => letter.charCodeAt(0));
  return new Response(new Blob([bytes]).stream().pipeThrough(new DecompressionStream(format))).arrayBuffer();
}
// the program's module is packed into a script, as a page from a file can fetch nothing
const loading = unpackedBytes(ARENA_WASM, "gzip").then((bytes) => WebAssembly.compile(bytes)).then((compiled) => { module = compiled; });

// Answers what the worker answers; `tell` hears of progress. A program in JavaScript that is silent for 1.5 seconds is ended.
function work(kind, task, tell = () => {}) {
  return new Promise((done, failed) => {
    const address = URL.createObjectURL(new Blob([WORKER], { type: "text/javascript" }));
    const one = new Worker(address);
    let silent = 0, most = MOST_FIRST_TICKS, place = null, clock = null;
    const end = () => { clearInterval(clock); one.terminate(); URL.revokeObjectURL(address); worker = null; };
    const fail = (said, more = {}) => { end(); failed(Object.assign(new Error(said), more)); };
    worker = { stop: () => fail(words.stopped) };
    clock = setInterval(() => {
      if (++silent > most) fail(`says nothing for ${most * TICK / 1000} s, and was ended`, { place });
    }, TICK);
    one.onmessage = ({ data }) => {
      silent = 0;
      // what runs no program of a stranger says nothing until it has ended
      if (data.begun) most = ["exploreModule", "check", "replay"].includes(kind) ? Infinity : MOST_TICKS;
      if (data.place) place = data.place;
      if (data.visited || data.asked) tell(data);
      if (data.failed !== undefined) fail(data.failed, { place: data.place });
      if (data.result !== undefined) { end(); done(data.result); }
    };
    one.onerror = (event) => { event.preventDefault(); fail(event.message || "has used up the memory, and was ended"); };
    one.postMessage({ kind, task });
  });
}
// Where a file of JavaScript is misspelled: a worker reads it, and does not run it.
function misspelling(text) {
  return new Promise((done) => {
    const probe = `(async function (require, module, exports, process, console) { "use strict"; ${text}\n}); postMessage(0);`;
    const address = URL.createObjectURL(new Blob([probe], { type: "text/javascript" })), one = new Worker(address);
    const end = (fault) => { one.terminate(); URL.revokeObjectURL(address); done(fault); };
    one.onmessage = () => end(null);
    one.onerror = (event) => { event.preventDefault(); end({ said: event.message.replace(/^Uncaught /, ""), line: event.lineno }); };
  });
}
