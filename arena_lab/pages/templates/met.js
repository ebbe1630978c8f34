// What one agent has met: nodes drawn as often as it cannot know that it was there before.
class Met {
  constructor(match, agent) {
    this.nodes = []; this.steps = []; this.agent = agent;
    const state = match.start();
    let spot = null, link = null;
    match.events.forEach((event, place) => {
      const reply = match.apply(state, event);
      if (event.agent !== agent || event.kind === "c" || (event.kind === "v" && !reply)) return;
      const own = { place, kind: event.kind, link: null, ended: null };
      if (event.kind === "e") spot = this.add(place, reply, null, null);
      if (event.kind === "v") { spot = this.arrive(place, link, reply); link = null; }
      if (event.kind === "d" && reply.ok) link = [spot, event.port];
      if (event.kind === "w" && reply.ok === "written") this.read(spot, place, event.put);
      else if (reply.board !== undefined) this.read(spot, place, reply.board);
      if (event.kind === "q") own.ended = "left";
      if (event.kind === "a" && reply.ok) own.ended = "accused port " + event.port;
      own.flag = event.kind === "a" && reply.ok ? [spot, event.port] : null;
      own.spot = spot; own.link = link;
      this.steps.push(own);
    });
    this.arrange();
  }
  add(place, reply, from, port) {
    const node = { id: this.nodes.length, born: place, ports: reply.ports, to: [], texts: [], from, row: 0, depth: 0 };
    if (from) { node.depth = from.depth + 1; from.to[port] = node; node.to[reply.from] = from; }
    this.nodes.push(node);
    return node;
  }
  arrive(place, [from, port], reply) { return from.to[port] || this.add(place, reply, from, port); }
  read(node, place, text) { node.texts.push([place, text]); }
  // rows of leaves, columns of steps from the home base
  arrange() {
    let rows = 0;
    const stack = this.nodes.length ? [[this.nodes[0], false]] : [];
    while (stack.length) {
      const [node, seen] = stack.pop();
      const children = node.to.filter((it) => it && it.from === node);
      if (!children.length) node.row = rows++;
      else if (seen) node.row = (children[0].row + children[children.length - 1].row) / 2;
      else { stack.push([node, true]); for (const child of children.reverse()) stack.push([child, false]); }
    }
    this.rows = Math.max(1, rows);
    this.depth = this.nodes.reduce((most, node) => Math.max(most, node.depth), 0);
  }
  // how many of its steps it has made before this place
  made(place) {
    let low = 0, high = this.steps.length;
    while (low < high) {
      const middle = (low + high) >> 1;
      if (this.steps[middle].place < place) low = middle + 1; else high = middle;
    }
    return low;
  }
  text(node, place) {
    let found = "";
    for (const [when, text] of node.texts) if (when < place) found = text;
    return found;
  }
}
const metOf = (match, agent) => {
  if (!match.met.has(agent)) match.met.set(agent, new Met(match, agent));
  return match.met.get(agent);
};
