// The exercises of examples/exercises in JavaScript: with what one begins, and what is to be mended in a match that was
// played. Titles, texts and matches are those of the exercises in Python (EXERCISE_TEXTS, which tools/play/folder.py
// writes), but for texts that name a command of Python.
"use strict";
const JOIN = 'const { MatchOver, join } = require("./client");\n\n';
const MAIN = "\nmain(...process.argv.slice(2)).catch((why) => {\n    console.error(why.message);\n    if (!(why instanceof MatchOver)) process.exitCode = 1;\n});\n";
const CAREFUL = KITS.javascript.files["careful.js"];
// a program of these lines between joining and closing
const joined = (...lines) => `${JOIN}async function main(host, port, key) {\n    const { agent, here } = await join(host, Number(port), key);\n${lines.map((line) => line && `    ${line}`).join("\n")}\n    agent.close();\n}\n${MAIN}`;
// how an agent notes what it has found, whatever the other has noted meanwhile
const HASTY_NOTE = `async function note(agent, side, mine, board) {
    const safe = safeOn(board);
    safe[side] = mine;
    let swap = await agent.write(board, boardOf(safe));
    while (!swap.written) swap = await agent.write(swap.board, boardOf(safe));
    return swap.board;
}
`;
const HASTY = CAREFUL.replace(/async function note\([^]*?\n}\n/, () => HASTY_NOTE);
const MOST_MOVES = 130;

// whether an event was answered and not refused, and those of a kind, of an agent or of all
const isAccepted = ({ reply }) => Boolean(reply) && reply.no === undefined;
const successes = ({ events }, does, agent) => events.filter((event) => event.do === does && isAccepted(event) && [undefined, event.agent].includes(agent));
const isWritten = ({ do: does, reply }) => does === "write" && reply.ok === "written";
// the answered events with the nodes of their agents: of a departure the one that it leaves, of an arrival the one that it reaches
function placedEvents({ events, network, match }) {
  const far = farOf(network), nodes = Array(match.agents).fill(match.home), ports = [];
  return events.filter(isAccepted).map((event) => {
    const { agent } = event;
    if (event.do === "deliver") [nodes[agent]] = far[nodes[agent]][ports[agent]];
    if (event.do === "depart") ports[agent] = event.port;
    return { event, node: nodes[agent] };
  });
}
// the last text on the whiteboard of a node
function boardAt(match, place) {
  const writes = placedEvents(match).filter(({ event, node }) => isWritten(event) && node === place);
  return writes.length ? writes[writes.length - 1].event.put : "";
}
const accusations = (match) => successes(match, "accuse").slice(0, 1).map(({ agent }) =>
  `agent ${agent} accused a link, and nothing here is about a black hole: agent.leave() ends an agent`);
const isSolved = ({ verdict }) => verdict.startsWith("solved");
const lostCount = ({ verdict }) => Number(/lost (\d+)/.exec(verdict)[1]);
const areAllLost = (match) => lostCount(match) === match.match.agents;
// the node and the port of the first accusation of a safe link, or undefined
function wrongEnd(match) {
  const far = farOf(match.network), accused = placedEvents(match).filter(({ event }) => event.do === "accuse");
  return accused.map(({ event, node }) => [node, event.port]).find(([node, port]) => !isDestroyed(match.match, far, node, port));
}
const SAME = "their programs are the same, so only the whiteboard can part them";
// why both agents may have gone the same way
function causeOf(match) {
  const writes = successes(match, "write").length;
  if (writes + successes(match, "look").length === 0) return SAME;
  if (!writes) return "they looked, and neither wrote anything";
  return "both saw the whiteboard before either had written; a write that expects what was seen tells who was first";
}
// what agents did at the home base too early
function orderFaults(match) {
  const { home } = match.match, [behind] = farOf(match.network)[home][0], wereThere = new Set(), faults = [];
  let onWay = [], hasComeBack = false, hasWritten = false;
  for (const { event, node } of placedEvents(match)) {
    const { agent } = event;
    if (event.do === "deliver" && node === behind) wereThere.add(agent);
    if (node !== home) continue;
    if (event.do === "deliver") {
      hasComeBack = hasComeBack || wereThere.has(agent);
      onWay = onWay.filter((number) => number !== agent);
    }
    if (isWritten(event)) {
      hasWritten = true;
      if (event.put === "safe" && !hasComeBack) faults.push(`agent ${agent} wrote 'safe' at the home base, and nobody had come back from the node behind port 0: a link may be slow, and an agent on it may be lost`);
    }
    if (event.do === "depart" && event.port === 0) {
      if (onWay.length && !hasComeBack) faults.push(`agent ${agent} went through port 0 while agent ${onWay[0]} was on its way there: who reads that somebody goes does not follow`);
      if (!hasWritten) faults.push(`agent ${agent} went through port 0 and had written nothing: before it goes an agent writes so at the home base`);
      onWay.push(agent);
    }
  }
  return faults;
}
const nobodyAccused = "nobody accused: who comes back from its side knows where the black hole is";
// what a note of another agent has lost by a write: a side of which fewer nodes are safe than stood there
const hasErased = ({ expect, put }) => expect.split(" ").some((old, side) => Number(old) > Number(put.split(" ")[side]));
// whether an agent writes again before it does anything else
function isWrittenAgain({ events }, event) {
  const after = events.slice(events.indexOf(event) + 1).find((one) => one.agent === event.agent);
  return Boolean(after) && after.do === "write";
}
const EXERCISES = [
  {
    name: "1-enter-and-look",
    text: "Your agent has entered. Let it look at the home base, and leave. `here.ports` is how many links the node has: print it with console.error if you want to see it.",
    hint: "Two lines: await agent.look() and await agent.leave().",
    agent: joined("// look, leave", ""),
    check: (match) => {
      if (!successes(match, "enter").length) return ["your agent never entered: join(host, port, key) is its first command"];
      const looks = placedEvents(match).filter(({ event }) => event.do === "look");
      if (!looks.length) return ["your agent entered and did not look: await agent.look() shows where it is"];
      if (looks.every(({ node }) => node !== match.match.home)) return ["your agent looked at another node: look before it departs"];
      return accusations(match);
    },
  },
  {
    name: "2-two-answers",
    text: "A departure is answered at once by `gone`, and again when the agent arrives; `depart` waits for both. Go through port 0. At the next node write on the whiteboard, as a text, the port of that node by which your agent came. Then leave.",
    hint: "const next = await agent.depart(0) gives the second answer: next.came is the port by which the agent came, and next.board is what stands on the whiteboard, which agent.write wants as its first argument.",
    agent: joined("// go through port 0, and write there by which port you came", "", "await agent.leave();"),
    check: (match) => {
      const [behind, port] = farOf(match.network)[match.match.home][0], departures = successes(match, "depart");
      if (!departures.length) return ["your agent never departed: const next = await agent.depart(0) goes through port 0, and waits until it arrives"];
      const placed = placedEvents(match), arrival = placed.find(({ event }) => event.do === "deliver");
      if (!arrival || arrival.node !== behind) return [`your agent went through port ${departures[0].port} of the home base, and not through port 0`];
      const writes = placed.filter(({ event }) => isWritten(event));
      if (!writes.length) return ["your agent went and wrote nothing there: await agent.write(next.board, String(next.came))"];
      if (writes.every(({ node }) => node !== behind)) {
        const where = writes[writes.length - 1].node === match.match.home ? "the home base" : "another node";
        return [`your agent wrote at ${where}: write where it has come through port 0`];
      }
      const text = boardAt(match, behind);
      if (text !== String(port)) return [`your agent came by port ${port} of the node and wrote '${text}': \`came\` is the port of the node where it is now; the one by which it left has another number at its other end`];
      return accusations(match);
    },
  },
  {
    name: "3-compare-and-write",
    text: "Two agents count on the whiteboard of the home base. Each adds 1 five times, so that it shows 10 in the end, whoever is faster. Then both leave. The program below loses counts: find out when, and mend it.",
    hint: "write(expect, put) writes only if the whiteboard shows `expect`. Otherwise swap.written is false and swap.board is what stands there: count on from that, and try again.",
    agent: joined("let { board } = here;", "for (let count = 0; count < 5; count += 1) {", "    const now = Number(board) + 1;", "    const swap = await agent.write(board, String(now));", "    board = swap.board;", "}", "await agent.leave();"),
    check: (match) => {
      const board = boardAt(match, match.match.home), writes = successes(match, "write").filter(isWritten);
      const jump = writes.find(({ expect, put }) => !/^\d*$/.test(expect) || put !== String(Number(expect) + 1));
      if (jump) return [`agent ${jump.agent} wrote '${jump.put}' where '${jump.expect}' stood: add 1 to what stands there when it writes`];
      const lost = successes(match, "write").length - writes.length;
      if (board !== "10") return [`the whiteboard shows '${board}' in the end and not '10'${lost ? `: ${lost} writes were answered \`changed\`, as the other agent had written meanwhile, and were not made again: read what stands there now, and decide again` : ""}`];
      for (const agent of range(match.match.agents)) {
        const count = writes.filter((event) => event.agent === agent).length;
        if (count !== 5) return [`agent ${agent} added 1 ${count} times, and each adds it 5 times: count what this agent has written, and not what stands there`];
      }
      return accusations(match);
    },
  },
  {
    name: "4-walk-round", agent: joined("let nodes = 1;", "// walk round, and count", "", "await agent.write(here.board, String(nodes));", "await agent.leave();"),
    check: (match) => {
      const { nodes } = match.network, moves = successes(match, "depart").length, board = boardAt(match, match.match.home);
      if (board === String(nodes)) return accusations(match);
      if (!moves) return ["your agent never departed: it cannot count what it has not seen"];
      if (moves < nodes) return [`your agent made ${moves} moves and wrote '${board}', and the ring has ${nodes} nodes: it was not home again, or took another node for it; a mark on the whiteboard tells, and who came by one of two ports goes on by the other`];
      return [`the whiteboard of the home base shows '${board}', and the ring has ${nodes} nodes: is each counted once, and the number written at home?`];
    },
  },
  {
    name: "5-two-sides",
    // schedules are drawn otherwise than in Python: under these two agents that look first both see nothing
    matches: [...EXERCISE_TEXTS["5-two-sides"].matches, ...[6, 7, 8, 9].map((seed) => ({ network: "ring:6", seed }))],
    agent: joined("// which side is this agent's?", "const side = 0;", "await agent.depart(side);", "await agent.leave();"),
    check: (match) => {
      const [first, second] = [0, 1].map((agent) => successes(match, "depart", agent)[0]);
      if (!first || !second) return ["an agent never departed: each goes through one port of the home base"];
      if (first.port === second.port) return [`both agents went through port ${first.port}: ${causeOf(match)}`];
      const [departure] = successes(match, "depart"), before = match.events.slice(0, match.events.indexOf(departure));
      if (!before.some(isWritten)) return [`agent ${departure.agent} went through port ${departure.port} before anybody had written: the other would see the same and go the same way; ${SAME}`];
      return accusations(match);
    },
    // whether agents that had been told the same went through different ports
    checkAll: (matches) => {
      const ports = new Map();
      for (const { events, keys } of matches) {
        for (const [agent, key] of keys.entries()) {
          let past = "";
          for (const event of events.filter((one) => one.agent === agent && isAccepted(one))) {
            if (event.do === "depart" && !ports.has(past)) ports.set(past, event.port);
            if (event.do === "depart" && ports.get(past) !== event.port) return [`agents that had been told the same went through different ports: chance, a key or a clock chose; ${SAME}`];
            past += `${JSON.stringify({ ...event, agent: undefined }).replaceAll(key, "its key")}\n`;
          }
        }
      }
      return [];
    },
  },
  {
    name: "6-cautious-step",
    agent: joined("// go through port 0 and come back, unless somebody is on the way there", "const there = await agent.depart(0);", "const home = await agent.depart(there.came);", 'await agent.write(home.board, "safe");', "await agent.leave();"),
    check: (match) => {
      if (!successes(match, "depart").length) return ["no agent went through port 0: one of them has to look"];
      if (lostCount(match) > 1) return [`${lostCount(match)} agents were lost in the same black hole: before it goes an agent writes so at the home base, and who reads that does not follow`];
      const { home, holes } = match.match, board = boardAt(match, home), faults = orderFaults(match);
      const isSafe = !holes.includes(farOf(match.network)[home][0][0]);
      if (!faults.length && isSafe && board !== "safe") return [`the node behind port 0 is safe, and the home base shows '${board}': who is back writes 'safe' in the place of what it wrote before`];
      return faults.length ? faults.slice(0, 1) : accusations(match);
    },
  },
  {
    name: "7-triangle", agent: joined('const swap = await agent.write("", "taken");', "const side = swap.written ? 0 : 1;", "await agent.depart(side);", "await agent.leave();"),
    check: (match) => {
      if (isSolved(match)) return [];
      if (areAllLost(match)) return ["both agents were lost: they took the same side"];
      if (!successes(match, "accuse").length) return [nobodyAccused];
      const end = wrongEnd(match);
      if (!end) return ["an agent accused the black hole, and nobody had come from the other node: it has guessed; how long one waits tells nothing"];
      return [`an agent accused port ${end[1]} of node ${end[0]}, which leads to a safe node: a port means something at its own node alone, and the black hole is on the side from which nobody has come back`];
    },
  },
  {
    name: "8-why-no-clock",
    agent: joined('const swap = await agent.write("", "gone");', "if (swap.written) {", "    const there = await agent.depart(0);", "    const home = await agent.depart(there.came);", '    await agent.write(home.board, "back");',
      "    await agent.leave();", "} else {", "    let { board } = swap;", '    for (let looks = 0; looks < 10 && board !== "back"; looks += 1) ({ board } = await agent.look());', '    await agent.accuse(board === "back" ? 1 : 0);', "}"),
    check: (match) => {
      if (isSolved(match)) return [];
      const waiter = successes(match, "accuse").find(({ agent }) => !successes(match, "depart", agent).length);
      if (waiter) return [`agent ${waiter.agent} accused a port without having gone anywhere: it took an agent for lost that was only slow; how long one waits tells nothing`];
      if (areAllLost(match)) return ["both agents were lost: they took the same side"];
      return [successes(match, "accuse").length ? "an agent accused a safe link: only who comes back knows what is safe" : nobodyAccused];
    },
  },
  {
    name: "9-every-schedule", agent: HASTY,
    // under these, too, the program solves the ring of 8, and one that notes once, written or not, does not
    matches: [...EXERCISE_TEXTS["9-every-schedule"].matches, ...[["fair", 0, 5], ["slow-agents", 7, 4], ["slow-links", 3, 3]]
      .map(([scheduler, seed, hole]) => ({ network: "ring:8", scheduler, seed, holes: [hole] }))],
    check: (match) => {
      if (isSolved(match)) return [];
      const notes = successes(match, "write").filter((event) => event.expect), erased = notes.find((event) => event.reply.ok === "written" && hasErased(event));
      if (erased) return [`agent ${erased.agent} writes '${erased.put}' where '${erased.expect}' stands: what the other agent has noted is gone; change your own number alone, in what stands there now`];
      const forgotten = notes.find((event) => event.reply.ok === "changed" && !isWrittenAgain(match, event));
      if (forgotten) return [`agent ${forgotten.agent} notes '${forgotten.put}', is answered \`changed\`, and goes on: nobody learns that these nodes are safe; note again until swap.written`];
      if (areAllLost(match)) return ["both agents were lost: they explored the same side; only one of them may take a side"];
      return [successes(match, "accuse").length ? "an agent accused a safe link: it has to see first that all nodes but that one are safe" : "nobody accused: who sees that one node is left knows where the black hole is"];
    },
  },
  {
    name: "10-halves", agent: CAREFUL,
    check: (match) => {
      const moves = successes(match, "depart").length;
      if (isSolved(match) && moves <= MOST_MOVES) return [];
      if (isSolved(match)) {
        const returns = placedEvents(match).filter(({ event, node }) => event.do === "deliver" && node === match.match.home).length;
        return [`your agents made ${moves} moves, and ${MOST_MOVES} are enough: ${returns} times one of them came home; what is marked at the nodes themselves need not be noted at home, and what is left is divided in halves`];
      }
      if (areAllLost(match)) return ["both agents were lost: the halves have a node in common, or an agent went into a link in front of which the other had written `going`"];
      return [successes(match, "accuse").length ? "an agent accused a safe link: only the one node that nobody has explored is the black hole" : "nobody accused: an agent that has explored its half goes on, for the other may be lost; divide what is left, and accuse once that is one node"];
    },
  },
].map((exercise) => ({ ...EXERCISE_TEXTS[exercise.name], ...exercise }));
