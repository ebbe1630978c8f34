// What node's WebAssembly makes of modules, whose names are read: as `searching modules` prints it.
const fs = require("fs");
const COMMANDS = ["Enter", "Look", "Write", "Depart", "Accuse", "Leave", "Sleep"];
const MOST = 50;

class Enough extends Error {}

function digest(memory) {
  let length = memory.length;
  while (length && memory[length - 1] === 0) length--;
  let sum = 0x811c9dc5;
  for (let at = 0; at < length; at++) sum = Math.imul(sum ^ memory[at], 0x01000193) >>> 0;
  return sum;
}

function comeOf(file) {
  const found = [];
  let number = 0;
  let instance;
  const memory = () => {
    const found = instance.exports.memory;
    return found instanceof WebAssembly.Memory ? found : undefined;
  };
  const arena = {
    ports: () => number,
    came: () => (number ? number + 1 : 0),
    argument: (place) => [3, 0xfffffff0][place >>> 0] || 0,
    board: (to, room) => {
      const text = Buffer.from(number ? `board ${number}` : "");
      const front = text.subarray(0, room >>> 0);
      if ((to >>> 0) + front.length > memory().buffer.byteLength) throw new WebAssembly.RuntimeError("board");
      Buffer.from(memory().buffer).set(front, to >>> 0);
      return text.length;
    },
  };
  for (const name of COMMANDS)
    arena[name.toLowerCase()] = (...operands) => {
      if (number === MOST) throw new Enough();
      number++;
      found.push(`${name} ${operands.map((operand) => operand >>> 0).join(" ")}`);
      return (number * 7) % 11;
    };
  let module;
  try {
    module = new WebAssembly.Module(fs.readFileSync(file));
  } catch (fault) {
    return ["refused"];
  }
  try {
    instance = new WebAssembly.Instance(module, { arena });
    // agents have no shared memory, and a function of their own to run, whose name is its number
    const imports = WebAssembly.Module.imports(module).length;
    const isShared = memory() && memory().buffer instanceof SharedArrayBuffer;
    if (isShared || Number(instance.exports.run.name) < imports) return ["refused"];
    instance.exports.run();
    const bytes = memory() ? new Uint8Array(memory().buffer) : null;
    found.push(bytes ? `ends ${bytes.length / 65536} ${digest(bytes)}` : "ends");
  } catch (fault) {
    if (fault instanceof Enough) found.push("commands");
    else if (fault instanceof WebAssembly.RuntimeError || fault instanceof RangeError) found.push("traps");
    else found.push(`fault ${fault}`);
  }
  return found;
}

for (const file of fs.readFileSync(0, "utf8").split("\n").filter((line) => line))
  process.stdout.write(comeOf(file).join("\n") + "\n====\n");
