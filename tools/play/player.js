// A match in the worker: agents and `arena rehearse --interactive` take turns, as a schedule says.
"use strict";
const MOST_EVENTS = 20000;
const encoded = (text) => new TextEncoder().encode(text), decoded = (bytes) => new TextDecoder().decode(bytes);

// what the program prints for these words, and its exit status
function outputOf(module, files, words, input = "") {
  const texts = ["", "", ""];
  let left = encoded(input);
  const arena = new Arena(module, {
    read: (room) => { const bytes = left.slice(0, room); left = left.slice(bytes.length); return bytes; },
    write: (stream, bytes) => { texts[stream] += decoded(bytes); },
  });
  for (const [name, content] of Object.entries(files)) arena.put(name, content);
  const status = arena.run(words);
  return { status, printed: texts[1], errors: texts[2] };
}

// what the program says of a replay, and how the page shows it
function judgedReplay(module, replay) {
  const files = { "P0.jsonl": replay }, { status, printed, errors } = outputOf(module, files, ["judge", "P0.jsonl"]);
  if (status) throw new Error(`this is no replay: ${errors.trim()}`);
  const [head, ...lines] = replay.trim().split("\n").map((line) => JSON.parse(line)), pasts = {};
  for (const number of range(head.agents)) {
    const { printed: past } = outputOf(module, files, ["explain", "P0.jsonl", String(number)]);
    pasts[number] = past.split("\n").filter((line) => /^\d/.test(line)).map((line) => Number(line.split(" ")[0]));
  }
  return { replay, events: lines.slice(0, -1), pasts, verdict: printed.trim(), spots: layout(head) };
}
// the same of a replay whose agents are not here
function resultOfReplay(module, replay) {
  const judged = judgedReplay(module, replay);
  return { ...judged, sources: judged.events.map(() => null), refusals: [], printed: [], faults: [], hangs: [], turns: [] };
}

class Player {
  constructor(task, programs, choose) {
    Object.assign(this, { task, choose, far: farOf(task.network), unread: "", errors: "", events: 0, turns: [], refusals: [] });
    this.agents = programs.map((program, number) => ({
      program, number, history: [], heard: 0, sent: [], taken: 0, places: [], node: task.match.home, port: null, since: 0, printed: "",
      fault: null, isTouched: true, isOver: false, isClosed: false, isEnded: false, isAway: false, isLost: false, isAsleep: false,
    }));
  }

  // has an agent act on what it was told since it acted last
  async settle(agent) {
    postMessage({ agent: agent.number, place: agent.sent.length ? agent.sent[agent.sent.length - 1].place : null });
    const state = await agent.program.told(agent.history.slice(agent.heard));
    agent.heard = agent.history.length;
    Object.assign(agent, { sent: state.sent, printed: state.printed, isAsleep: state.isAsleep, hangs: state.hangs });
    agent.fault = agent.fault || state.fault;
    agent.isClosed = state.isClosed || agent.fault !== null;
  }
  isDoomed(agent) { return isDestroyed(this.task.match, this.far, agent.node, agent.port); }
  isHeld(agent) { return this.task.match.held.some(([v, p]) => v === agent.node && p === agent.port); }

  steps() { return this.agents.flatMap((agent) => agent.isOver || agent.isLost ? [] : agent.isAway ? this.stepsOnLink(agent) : this.stepsAtNode(agent)); }
  stepsOnLink(agent) {
    const wakes = agent.isAsleep ? [{ does: "wake", agent: agent.number }] : [];
    if (this.isHeld(agent)) return wakes;
    return [...wakes, { does: "arrive", agent: agent.number, place: [agent.node, agent.port], since: agent.since }];
  }
  stepsAtNode(agent) {
    const steps = [];
    if (agent.taken < agent.sent.length) steps.push({ does: "answer", agent: agent.number });
    else if (agent.isClosed && !agent.isEnded) steps.push({ does: "end", agent: agent.number });
    if (agent.isAsleep) steps.push({ does: "wake", agent: agent.number });
    return steps;
  }

  // the next line of the script, once the agents have settled
  async nextLine() {
    for (const agent of this.agents) if (agent.isTouched) { agent.isTouched = false; await this.settle(agent); }
    for (;;) {
      const steps = this.steps();
      if (!steps.length || ++this.events > MOST_EVENTS) return this.close();
      const step = this.choose(steps, this.agents.length), agent = this.agents[step.agent];
      if (step.does !== "wake") return this.lineOf(step, agent);
      this.turns.push(step.agent);
      agent.history.push(WAKE);
      await this.settle(agent);
    }
  }
  lineOf(step, agent) {
    if (step.does === "end") {
      agent.isEnded = agent.isOver = true;
      return `end ${agent.number}\n`;
    }
    this.turns.push(step.agent);
    if (step.does === "arrive") {
      agent.isLost = this.isDoomed(agent);
      return `deliver 0 ${agent.number}\n`;
    }
    const { line, place } = agent.sent[agent.taken++];
    agent.places.push(place);
    this.latest = { line, place };
    return `${agent.number} ${line}\n`;
  }
  close() {
    if (this.hasClosed) return "";
    this.hasClosed = true;
    return "close 0\n";
  }

  // takes what the program prints: a line is an agent and its reply
  hear(text) {
    const lines = (this.unread + text).split("\n");
    this.unread = lines.pop();
    for (const line of lines) {
      const space = line.indexOf(" ");
      if (space > 0 && !this.hasClosed) this.take(this.agents[Number(line.slice(0, space))], line.slice(space + 1));
    }
  }
  take(agent, reply) {
    agent.history.push(reply);
    agent.isTouched = true;
    if (reply === GONE) Object.assign(agent, { isAway: true, since: this.events, port: JSON.parse(this.latest.line).port });
    else if (agent.isAway) {
      [agent.node] = this.far[agent.node][agent.port];
      agent.isAway = false;
    }
    if (FINAL.test(reply)) agent.isOver = true;
    if (reply.startsWith('{"no":')) this.refusals.push({ agent: agent.number, line: this.latest.line, why: JSON.parse(reply).no, place: this.latest.place });
  }

  async play() {
    const { module, files } = this.task;
    const arena = new Arena(module, {
      read: async () => encoded(await this.nextLine()),
      write: (stream, bytes) => { if (stream === 1) this.hear(decoded(bytes)); else this.errors += decoded(bytes); },
    });
    for (const [name, content] of Object.entries(files)) arena.put(name, content);
    const status = await arena.runAsync(["rehearse", "tournament.toml", "--interactive", "--replay", "P"]);
    if (status) throw new Error(this.errors || `arena: status ${status}`);
    await this.repeat();
    return this.result(decoded(arena.get("P0.jsonl")));
  }
  // starts each agent again, alone: one that is told the same sends the same
  async repeat() {
    for (const agent of this.agents.filter((one) => !one.fault)) {
      const { sent } = await agent.program.anew().told(agent.history);
      const isSame = sent.length === agent.sent.length && sent.every((one, place) => one.line === agent.sent[place].line);
      if (!isSame) agent.fault = { said: "sends something else when it is told the same again", place: null };
    }
  }

  result(replay) {
    const judged = judgedReplay(this.task.module, replay);
    return {
      ...judged, sources: this.sources(judged.events), refusals: this.refusals, printed: this.agents.map((agent) => agent.printed),
      faults: this.agents.map((agent) => agent.fault), hangs: this.agents.map((agent) => Boolean(agent.hangs) && !agent.isOver),
      turns: this.turns,
    };
  }
  // for each event the place in the source that its agent's last line came from
  sources(events) {
    const left = this.agents.map((agent) => agent.places.slice()), last = this.agents.map(() => null);
    return events.map((event) => {
      if (event.agent === undefined) return null;
      if (event.do !== "deliver") last[event.agent] = left[event.agent].shift() || null;
      return last[event.agent];
    });
  }
}
