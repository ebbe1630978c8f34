// A match as the page of a match keeps it (arena_lab/pages), and which accusations are right.
"use strict";
const LETTERS = { enter: "e", look: "l", leave: "q", bad: "b", write: "w", depart: "d", accuse: "a", deliver: "v", close: "c" };

// each text stands once, and events name its number
function eventsOf(events) {
  const texts = new Map();
  const number = (text) => { if (!texts.has(text)) texts.set(text, texts.size); return texts.get(text); };
  const parts = events.map((event) => {
    const put = event.do === "write" ? [number(event.expect), number(event.put)] : [];
    return LETTERS[event.do] + [event.agent, event.port, ...put].filter((part) => part !== undefined).join(":");
  });
  return { events: parts.join(","), texts: [...texts.keys()] };
}
// places as runs: how many are passed over, and how many follow
function runsOf(places) {
  const runs = [];
  let end = 0;
  for (const place of places) {
    if (runs.length && place === end) runs[runs.length - 1][1]++; else runs.push([place - end, 1]);
    end = place + 1;
  }
  return runs;
}
function replayData(name, { replay, events, verdict, spots, pasts }) {
  const head = JSON.parse(replay.slice(0, replay.indexOf("\n")));
  const letters = Object.fromEntries(Object.entries(LETTERS).map(([word, letter]) => [letter, word]));
  const runs = Object.fromEntries(Object.entries(pasts).map(([agent, places]) => [agent, runsOf(places)]));
  return { name, verdict, spots, match: { head, ...eventsOf(events), words: letters }, twin: null, pasts: runs };
}
// whether an accusation, at this place of the events, names a link that destroys
function isRightAccusation(events, { network, match }, at) {
  const far = farOf(network), { agent, port } = events[at];
  let node = match.home, by = null;
  for (const event of events.slice(0, at).filter((one) => one.agent === agent)) {
    if (event.do === "depart" && event.reply.ok) by = event.port;
    if (event.do === "deliver" && event.reply) [node] = far[node][by];
  }
  return isDestroyed(match, far, node, port);
}
