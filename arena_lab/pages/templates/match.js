// A match, by the rules of docs/MODEL.md.
"use strict";
const EVERY = 512;
const bytes = (text) => new TextEncoder().encode(text).length;

class Match {
  constructor(given) {
    Object.assign(this, given.head);
    this.given = given;
    this.far = Array.from({ length: this.nodes }, () => []);
    for (const [v, p, w, q] of this.links) { this.far[v][p] = [w, q]; this.far[w][q] = [v, p]; }
    this.darkEnds = new Set();
    for (const [v, p] of this.dark) { this.darkEnds.add(v + "." + p); this.darkEnds.add(this.far[v][p].join(".")); }
    this.events = given.events.split(",").map((code) => this.decode(code));
    this.kept = [];
    const state = this.start();
    this.events.forEach((event, place) => {
      if (place % EVERY === 0) this.kept.push(this.copy(state));
      this.apply(state, event);
    });
    if (this.events.length % EVERY === 0) this.kept.push(this.copy(state));
    this.met = new Map();
    this.now = { place: 0, state: this.start() };
  }
  decode(code) {
    const [agent, one, two] = code.slice(1).split(":").map(Number);
    const event = { kind: code[0], agent };
    if (event.kind === "w") { event.expect = this.given.texts[one]; event.put = this.given.texts[two]; }
    else if ("da".includes(event.kind)) event.port = one;
    return event;
  }
  start() {
    const outside = { standing: "outside", node: this.home, port: null, came: null, lost: false };
    return { agents: Array.from({ length: this.agents }, () => ({ ...outside })), boards: Array(this.nodes).fill("") };
  }
  copy(state) { return { agents: state.agents.map((agent) => ({ ...agent })), boards: state.boards.slice() }; }
  doomed(node, port) { return this.darkEnds.has(node + "." + port) || this.holes.includes(this.far[node][port][0]); }
  // plays an event that the log has, and answers its reply
  apply(state, event) {
    if (event.kind === "c") return null;
    const agent = state.agents[event.agent];
    const here = () =>
      ({ board: state.boards[agent.node], from: agent.came, ok: "here", ports: this.far[agent.node].length });
    if (event.kind === "v") {
      if (this.doomed(agent.node, agent.port)) { agent.lost = true; return null; }
      [agent.node, agent.came] = this.far[agent.node][agent.port];
      agent.standing = "present";
      return here();
    }
    if (event.kind === "e") { agent.standing = "present"; return here(); }
    if (event.kind === "q") { agent.standing = "left"; return { ok: "bye" }; }
    if (agent.standing === "away") return { no: "away" };
    if (event.kind === "b") return { no: "line" };
    if (event.kind === "l") return here();
    if (event.kind === "w") {
      if (bytes(event.put) > this.board) return { no: "long" };
      if (state.boards[agent.node] !== event.expect) return { board: state.boards[agent.node], ok: "changed" };
      state.boards[agent.node] = event.put;
      return { ok: "written" };
    }
    if (event.port >= this.far[agent.node].length) return { no: "port" };
    agent.port = event.port;
    agent.standing = event.kind === "a" ? "accused" : "away";
    return event.kind === "a" ? { ok: "noted" } : { ok: "gone" };
  }
  // the state before the event at this place; moving on by one event costs one event
  at(place) {
    if (place < this.now.place || place - this.now.place > EVERY) {
      const slot = Math.floor(place / EVERY);
      this.now = { place: slot * EVERY, state: this.copy(this.kept[slot]) };
    }
    while (this.now.place < place) this.apply(this.now.state, this.events[this.now.place++]);
    return this.now.state;
  }
  reply(place) { return this.apply(this.copy(this.at(place)), this.events[place]); }
  // the event's line in the replay
  line(place) {
    const { kind, agent, port, expect, put } = this.events[place];
    const line = { agent, do: this.given.words[kind], expect, port, put, reply: this.reply(place) };
    if (kind === "c") delete line.agent;
    return JSON.stringify(line);
  }
}
