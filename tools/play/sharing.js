// What leaves the page: a link that holds everything in its fragment, and a zip for a hall or a contest.
"use strict";
// the longest fragment that is looked at, and the longest text in it
const MOST_FRAGMENT = 200000, MOST_TEXT = 1000000;

async function fragmentOf(shared) {
  const stream = new Blob([JSON.stringify(shared)]).stream().pipeThrough(new CompressionStream("deflate"));
  const bytes = new Uint8Array(await new Response(stream).arrayBuffer());
  return btoa(Array.from(bytes, (byte) => String.fromCharCode(byte)).join("")).replace(/\+/g, "-").replace(/\//g, "_").replace(/=+$/, "");
}
// What a fragment shares, or null if it shares nothing that this page made: other files than those of its start, or values
// that its fields cannot have.
async function sharedIn(fragment, starts, names) {
  if (fragment.length > MOST_FRAGMENT || !/^[\w-]+$/.test(fragment)) return null;
  try {
    const text = await unpackedText(fragment.replace(/-/g, "+").replace(/_/g, "/"));
    const shared = JSON.parse(text);
    const isText = (value) => typeof value === "string";
    if (shared.version === 1 && isText(shared.replay)) return { replay: shared.replay };
    const isRight = shared.version === 1 && starts.includes(shared.start)
      && Object.entries(shared.files).every(([name, text]) => Object.hasOwn(textsOf(shared.start), name) && isText(text))
      && Object.entries(shared.fields).every(([name, value]) => names.includes(name) && isText(value) && fits(name, value));
    return isRight ? shared : null;
  } catch { return null; }
}
// reads no more than the longest text, however much is packed
async function unpackedText(base64) {
  const bytes = Uint8Array.from(atob(base64), (letter) => letter.charCodeAt(0));
  const reader = new Blob([bytes]).stream().pipeThrough(new DecompressionStream("deflate")).getReader();
  const parts = [];
  let length = 0;
  for (;;) {
    const { done, value } = await reader.read();
    if (done) return new Blob(parts).text();
    length += value.length;
    if (length > MOST_TEXT) throw new Error("too long");
    parts.push(value);
  }
}

const CRC = range(256).map((byte) => range(8).reduce((value) => value & 1 ? 0xedb88320 ^ (value >>> 1) : value >>> 1, byte) >>> 0);
const crcOf = (bytes) => (bytes.reduce((sum, byte) => CRC[(sum ^ byte) & 255] ^ (sum >>> 8), 0xffffffff) ^ 0xffffffff) >>> 0;
const littleEndian = (fields) => Uint8Array.from(fields.flatMap(([value, size]) => range(size).map((byte) => (value >>> (8 * byte)) & 255)));
// a zip whose files are stored as they are
function zipOf(files) {
  const parts = [], heads = [], sizeOf = (list) => list.reduce((sum, one) => sum + one.length, 0);
  for (const [name, text] of Object.entries(files)) {
    const path = new TextEncoder().encode(name), bytes = new TextEncoder().encode(text), at = sizeOf(parts);
    const fields = [[20, 2], [0x800, 2], [0, 2], [0, 2], [0x21, 2], [crcOf(bytes), 4], [bytes.length, 4], [bytes.length, 4], [path.length, 2], [0, 2]];
    parts.push(littleEndian([[0x04034b50, 4], ...fields]), path, bytes);
    heads.push(littleEndian([[0x02014b50, 4], [20, 2], ...fields, [0, 2], [0, 2], [0, 2], [0, 4], [at, 4]]), path);
  }
  const count = Object.keys(files).length;
  const end = littleEndian([[0x06054b50, 4], [0, 2], [0, 2], [count, 2], [count, 2], [sizeOf(heads), 4], [sizeOf(parts), 4], [0, 2]]);
  return new Blob([...parts, ...heads, end], { type: "application/zip" });
}
