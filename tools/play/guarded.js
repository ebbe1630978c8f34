// Puts a call into each loop of a program in JavaScript, so that a loop that never ends is named by its line. Line numbers stay.
"use strict";
const BEFORE_PATTERN = /(^|[=(,[!&|?{};:+\-*%<>~^]|\b(return|typeof|case|in|of|delete|void|throw|new|do|else|await|yield))\s*$/;

// the end of the string, comment or regular expression that begins at a place, or that place
function past(text, at, before) {
  const two = text.slice(at, at + 2), one = text[at];
  if (two === "//") { const end = text.indexOf("\n", at); return end < 0 ? text.length : end; }
  if (two === "/*") { const end = text.indexOf("*/", at + 2); return end < 0 ? text.length : end + 2; }
  if (one === '"' || one === "'") {
    for (at++; at < text.length && text[at] !== one && text[at] !== "\n"; at++) if (text[at] === "\\") at++;
    return at + 1;
  }
  if (one === "`") {
    for (at++; at < text.length && text[at] !== "`"; at++) {
      if (text[at] === "\\") at++;
      else if (text.slice(at, at + 2) === "${") at = pastBrackets(text, at + 1) - 1;
    }
    return at + 1;
  }
  if (one === "/" && BEFORE_PATTERN.test(before)) {
    let inClass = false;
    for (at++; at < text.length && text[at] !== "\n" && (inClass || text[at] !== "/"); at++) {
      if (text[at] === "\\") at++;
      else if (text[at] === "[") inClass = true;
      else if (text[at] === "]") inClass = false;
    }
    return at + 1;
  }
  return at;
}
function pastBrackets(text, at) {
  let depth = 0;
  const begin = at;
  while (at < text.length) {
    const end = past(text, at, text.slice(begin, at).slice(-20));
    if (end > at) { at = end; continue; }
    if ("([{".includes(text[at])) depth++;
    if (")]}".includes(text[at]) && --depth === 0) return at + 1;
    at++;
  }
  return at;
}
const pastSpace = (text, at) => {
  while (at < text.length) {
    const end = /\s/.test(text[at]) ? at + 1 : /^\/[/*]/.test(text.slice(at, at + 2)) ? past(text, at, "") : at;
    if (end === at) break;
    at = end;
  }
  return at;
};
function guarded(text) {
  let made = "", at = 0, line = 1;
  const take = (end) => {
    const part = text.slice(at, end);
    line += part.split("\n").length - 1;
    made += part;
    at = end;
  };
  // where calls are put in, by place
  const calls = new Map();
  const scan = (from, to) => {
    for (let place = from; place < to;) {
      const end = past(text, place, text.slice(Math.max(0, place - 20), place));
      if (end > place) { place = end; continue; }
      const word = /[\w$.]/.test(text[place - 1] || "") ? null : /^(while|for|do)\b/.exec(text.slice(place, place + 6));
      if (!word) { place++; continue; }
      let next = pastSpace(text, place + word[0].length);
      if (word[0] === "for" && /^await\b/.test(text.slice(next, next + 6))) next = pastSpace(text, next + 5);
      const head = next;
      if (word[0] !== "do" && text[next] === "(") next = pastSpace(text, pastBrackets(text, next));
      if (text[next] === "{") calls.set(next + 1, place);
      // without braces: the condition is where it can be
      else if (word[0] === "while" && text[head] === "(") calls.set(head + 1, place);
      place += word[0].length;
    }
  };
  scan(0, text.length);
  const lineAt = (place) => text.slice(0, place).split("\n").length;
  for (const [place, loop] of [...calls].sort((one, other) => one[0] - other[0])) {
    take(place);
    made += text[place - 1] === "{" ? `arenaLoop(${lineAt(loop)});` : `arenaLoop(${lineAt(loop)}),`;
  }
  take(text.length);
  return made;
}
if (typeof module !== "undefined") module.exports = { guarded };
