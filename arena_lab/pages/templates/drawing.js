// Drawing: the whole match, and what an agent has met.
const SVG = "http://www.w3.org/2000/svg";
const LABELS = 700, NODE = 15;
// from how many nodes on names are shown to who points at a node alone
const CROWDED = 100;
// how much of a whiteboard's text is shown, by how many nodes there are: the rest is shown to who points at it
const ROOM = [[36, 12], [CROWDED, 6], [Infinity, 0]];
// how many times larger agents and labels are drawn if there are that many nodes
const LARGER = 2.2;
// of what an agent has met: how far nodes stand apart, the margin, and how much is shown at once
const ACROSS = 168, DOWN = 84, EDGE = 92, WIDEST = 1400, HIGHEST = 900;

function draw(parent, name, attributes, text) {
  const element = document.createElementNS(SVG, name);
  for (const key in attributes) element.setAttribute(key, attributes[key]);
  if (text !== undefined) element.textContent = text;
  parent.append(element);
  return element;
}
const between = (a, b, part) => [a[0] + (b[0] - a[0]) * part, a[1] + (b[1] - a[1]) * part];
function ahead(a, b, far) {
  const length = Math.hypot(b[0] - a[0], b[1] - a[1]) || 1;
  return between(a, b, Math.min(far / length, 0.7));
}
function mark(layer, [x, y], number, lost, times = 1) {
  const one = draw(layer, "g", { transform: `translate(${Math.round(x)} ${Math.round(y)}) scale(${times})` });
  draw(one, "circle", { r: 10, class: lost ? "lost" : "agent" });
  draw(one, "text", { y: 4, class: lost ? "lostnumber" : "number" }, number);
  if (lost) draw(one, "text", { y: 23, class: "word" }, "lost");
}
// the beginning of a whiteboard's text, or a pencil where there is no room; all of it for who points at it
function board(layer, at, text, room) {
  const written = draw(layer, "text", { ...at, class: "board" }, room ? excerpt(text, room) : "\u270e");
  draw(written, "title", {}, shown(text));
}
// the spot so far ahead on the way to another one, and so far beside it
function spotBeside(from, to, far, aside) {
  const [x, y] = ahead(from, to, far), length = Math.hypot(to[0] - from[0], to[1] - from[1]) || 1;
  return { x: x + (from[1] - to[1]) / length * aside, y: y + (to[0] - from[0]) / length * aside + 4 };
}
// an accusation stands beside its link, near the accuser's end
function flag(layer, from, to, number) {
  draw(layer, "text", { ...spotBeside(from, to, NODE + 30, 17), class: "flag" }, "\u2691" + number);
}

class Whole {
  constructor(figure, match) {
    this.match = match;
    const side = Math.max(440, Math.min(1500, Math.sqrt(match.nodes) * 135));
    const wide = 112, high = 56;
    const inner = side - 2 * high;
    this.spots = data.spots.map(([x, y]) => [wide + x / 1000 * inner, high + y / 1000 * inner]);
    const box = `0 0 ${inner + 2 * wide} ${side}`;
    this.svg = draw(figure, "svg", { viewBox: box, role: "img", "aria-label": "the network" });
    this.svg.style.minWidth = side / 2.2 + "px";
    if (match.nodes > CROWDED) this.svg.classList.add("crowded");
    this.times = match.nodes > CROWDED ? LARGER : 1;
    this.room = ROOM.find(([nodes]) => match.nodes <= nodes)[1];
    this.still();
    this.layer = draw(this.svg, "g", {});
  }
  still() {
    const { match, spots, svg } = this;
    const paths = { link: "", "link dark": "" };
    for (const [v, p, w] of match.links) {
      const kind = match.darkEnds.has(v + "." + p) ? "link dark" : "link";
      paths[kind] += `M${spots[v].map(Math.round)}L${spots[w].map(Math.round)}`;
    }
    for (const kind in paths) if (paths[kind]) draw(svg, "path", { d: paths[kind], class: kind });
    if (match.links.length * 2 <= LABELS) {
      for (const [v, p, w, q] of match.links) for (const [from, port, to] of [[v, p, w], [w, q, v]]) {
        const far = NODE + (match.holes.includes(from) || match.home === from ? 18 : 13);
        draw(svg, "text", { ...spotBeside(spots[from], spots[to], far, 8), class: "port" }, port);
      }
    }
    spots.forEach(([x, y], node) => this.node(node, x, y));
  }
  node(node, x, y) {
    const hole = this.match.holes.includes(node), home = this.match.home === node;
    const shape = hole
      ? draw(this.svg, "rect", { x: x - NODE, y: y - NODE, width: 2 * NODE, height: 2 * NODE, class: "hole" })
      : draw(this.svg, "circle", { cx: x, cy: y, r: NODE, class: "node" });
    draw(shape, "title", {}, `node ${node}`);
    if (home) draw(this.svg, "circle", { cx: x, cy: y, r: NODE + 4, class: "node", "fill-opacity": 0 });
    draw(this.svg, "text", { x, y: y + 5, class: hole ? "name inhole" : "name" }, node);
    if (hole || home) this.label(node, hole ? "black hole" : "home");
  }
  // a label stands between the links of its node, so that it covers no port; the whiteboard's text stands below
  label(node, text) {
    const [x, y] = this.spots[node], turn = this.gap(node);
    const wide = NODE + this.times * (22 + 3 * text.length), high = NODE + this.times * 16;
    const at = { x: x + Math.cos(turn) * wide, y: y + Math.sin(turn) * high + 4 };
    draw(this.svg, "text", { ...at, class: "beside" }, text);
  }
  // a whiteboard's text stands between the links of its node too, farther out than a label
  boardSpot(node) {
    const [x, y] = this.spots[node], turn = this.gap(node), across = Math.cos(turn), down = Math.sin(turn);
    const side = Math.abs(across) > 0.35 ? Math.sign(across) : 0;
    const isLabelled = node === this.match.home || this.match.holes.includes(node);
    const farther = isLabelled ? 16 * (down * this.times + (down < -0.2 ? -1 : 1)) : down * (side ? 4 : 12);
    const anchor = ["end", "middle", "start"][side + 1];
    const beside = side ? side * (NODE * Math.abs(across) + 7) : 0;
    return { x: x + beside, y: y + down * NODE + 4 + farther, style: `text-anchor: ${anchor}` };
  }
  // the direction in the middle of the widest gap between the links of a node; below it only if there is no other
  gap(node) {
    const [x, y] = this.spots[node];
    const turns = this.match.far[node].map(([to]) => Math.atan2(this.spots[to][1] - y, this.spots[to][0] - x));
    turns.sort((a, b) => a - b);
    const gaps = turns.map((turn, place) => {
      const next = place + 1 < turns.length ? turns[place + 1] : turns[0] + 2 * Math.PI, middle = (turn + next) / 2;
      return { middle, room: next - turn - (Math.sin(middle) > 0.6 ? Math.PI / 2 : 0) };
    });
    return gaps.reduce((best, one) => one.room > best.room ? one : best).middle;
  }
  spotOf(agent, beside) {
    const { spots, match } = this;
    const at = spots[agent.node];
    if (agent.standing !== "away") {
      const turn = Math.PI / 4 + beside * 0.9;
      return [at[0] + Math.cos(turn) * (NODE + 9), at[1] - Math.sin(turn) * (NODE + 9)];
    }
    return between(at, spots[match.far[agent.node][agent.port][0]], agent.lost ? 0.62 : 0.42);
  }
  show(place) {
    const state = this.match.at(place), many = new Map();
    this.layer.replaceChildren();
    state.boards.forEach((text, node) => {
      if (text) board(this.layer, this.boardSpot(node), text, this.room);
    });
    state.agents.forEach((agent, number) => {
      if (agent.standing === "accused") {
        flag(this.layer, this.spots[agent.node], this.spots[this.match.far[agent.node][agent.port][0]], number);
      }
      if (agent.standing !== "present" && agent.standing !== "away") return;
      const key = agent.node + (agent.standing === "away" ? "." + agent.port : "");
      const beside = many.get(key) || 0;
      many.set(key, beside + 1);
      const [x, y] = this.spotOf(agent, beside);
      const aside = agent.standing === "away" ? beside * 8 : 0;
      mark(this.layer, [x + aside, y + aside], number, agent.lost, this.times);
    });
  }
}

class Eyes {
  constructor(figure, match, agent) {
    this.met = metOf(match, agent);
    this.width = Math.max(2 * EDGE + 160, this.met.depth * ACROSS + 2 * EDGE);
    this.height = this.met.rows * DOWN + 40;
    const label = { role: "img", "aria-label": "what the agent has met" };
    this.svg = draw(figure, "svg", label);
    this.svg.style.minWidth = Math.min(this.width, WIDEST) / 1.4 + "px";
    this.svg.style.maxWidth = this.width * 1.5 + "px";
    this.frame(EDGE, DOWN);
    if (this.met.nodes.length) return;
    draw(this.svg, "text", { x: this.width / 2, y: 40, class: "name" }, "this agent never entered");
  }
  // shows all, or, where that is much, what is around this spot
  frame(x, y) {
    const wide = Math.min(this.width, WIDEST), high = Math.min(this.height, HIGHEST);
    this.left = Math.max(0, Math.min(this.width - wide, x - wide / 2));
    this.top = Math.max(0, Math.min(this.height - high, y - high / 2));
    this.svg.setAttribute("viewBox", [this.left, this.top, wide, high].map(Math.round).join(" "));
  }
  isInFrame(node) {
    const [x, y] = this.spot(node);
    return Math.abs(x - this.left - WIDEST / 2) < WIDEST && Math.abs(y - this.top - HIGHEST / 2) < HIGHEST;
  }
  spot(node) { return [EDGE + node.depth * ACROSS, 44 + node.row * DOWN]; }
  // where the link at a port of a node leads in the picture: to a node that was met, or into the open
  toward(node, port, place) {
    const to = node.to[port];
    if (to && Math.max(to.born, node.born) < place) return this.spot(to);
    const [x, y] = this.spot(node), turn = Math.PI * (0.85 - 0.7 * (port + 0.5) / node.ports);
    return [x + Math.cos(turn) * 56, y - Math.sin(turn) * 44];
  }
  show(place) {
    const { met, svg } = this;
    const step = met.steps[met.made(place) - 1];
    if (met.nodes.length) svg.replaceChildren();
    if (!step) return;
    this.frame(...this.spot(step.link ? step.link[0] : step.spot));
    const seen = met.nodes.filter((node) => node.born < place && this.isInFrame(node));
    for (const node of seen) this.links(node, place);
    for (const node of seen) this.node(node, place);
    if (step.flag) {
      flag(svg, this.spot(step.flag[0]), this.toward(step.flag[0], step.flag[1], place), met.agent);
    } else if (!step.ended && step.link) {
      const [node, port] = step.link;
      mark(svg, between(this.spot(node), this.toward(node, port, place), 0.6), met.agent, false);
    } else if (!step.ended) {
      const [x, y] = this.spot(step.spot);
      mark(svg, [x + 18, y - 18], met.agent, false);
    }
  }
  links(node, place) {
    const at = this.spot(node);
    for (let port = 0; port < node.ports; port++) {
      const to = this.toward(node, port, place);
      draw(this.svg, "path", { d: `M${at}L${to}`, class: "link" });
      const [x, y] = ahead(at, to, NODE + 12);
      draw(this.svg, "text", { x, y: y - 3, class: "port" }, port);
    }
  }
  node(node, place) {
    const [x, y] = this.spot(node), text = this.met.text(node, place);
    draw(this.svg, "circle", { cx: x, cy: y, r: NODE, class: "node" });
    if (node.id === 0) {
      draw(this.svg, "circle", { cx: x, cy: y, r: NODE + 4, class: "node", "fill-opacity": 0 });
      draw(this.svg, "text", { x: x - 46, y: y - NODE + 4, class: "beside" }, "home");
    }
    if (text) board(this.svg, { x, y: y + NODE + 14 }, text, EXCERPT);
  }
}
