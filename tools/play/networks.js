// Networks by name or out of a file, their pictures, and the files by which the program reads a match.
"use strict";
// mulberry32: the same numbers from the same seed
function chance(seed) {
  let state = seed >>> 0;
  return () => {
    state = (state + 0x6d2b79f5) >>> 0;
    let mixed = Math.imul(state ^ (state >>> 15), state | 1);
    mixed ^= mixed + Math.imul(mixed ^ (mixed >>> 7), mixed | 61);
    return ((mixed ^ (mixed >>> 14)) >>> 0) / 2 ** 32;
  };
}
function shuffled(items, random) {
  const found = items.slice();
  for (let last = found.length - 1; last > 0; last--) {
    const place = Math.floor(random() * (last + 1));
    [found[last], found[place]] = [found[place], found[last]];
  }
  return found;
}
const range = (count) => Array.from({ length: count }, (_, place) => place);

// port P of node V leads to the node at place P of V's list
function ofNeighbours(near) {
  const links = [];
  near.forEach((ends, v) => ends.forEach((w, p) => { if (v < w) links.push([v, p, w, near[w].indexOf(v)]); }));
  return { nodes: near.length, links };
}
const KINDS = {
  ring: (nodes) => ({ nodes, links: range(nodes).map((v) => [v, 0, (v + 1) % nodes, 1]) }),
  complete: (nodes) => ofNeighbours(range(nodes).map((v) => range(nodes - 1).map((port) => (v + port + 1) % nodes))),
  hypercube: (bits) => ofNeighbours(range(2 ** bits).map((v) => range(bits).map((bit) => v ^ (1 << bit)))),
  wheel: (rim) => ofNeighbours([range(rim).map((it) => it + 1),
    ...range(rim).map((it) => [((it + 1) % rim) + 1, ((it + rim - 1) % rim) + 1, 0])]),
  torus: (rows, columns) => ({
    nodes: rows * columns,
    links: range(rows * columns).flatMap((node) => {
      const row = Math.floor(node / columns), column = node % columns;
      return [[node, 0, row * columns + (column + 1) % columns, 1], [node, 2, (row + 1) % rows * columns + column, 3]];
    }),
  }),
  petersen: (nodes, step) => ofNeighbours([[0, nodes, 1], [nodes, 0, step]].flatMap(([own, other, pace]) =>
    range(nodes).map((place) => [(place + pace) % nodes + own, (place - pace + nodes) % nodes + own, place + other]))),
};
function networkNamed(name) {
  const [kind, sizes] = name.split(":");
  if (!KINDS[kind] || !/^\d+(x\d+)?$/.test(sizes || "")) throw new Error(`there is no network ${name}`);
  return KINDS[kind](...sizes.split("x").map(Number));
}
const MOST_NODES = 4096, MOST_AGENTS = 64;
// of a network file, as far as this page has to read it: `arena check` says what else is wrong
function networkIn(text) {
  const plain = text.replace(/#[^\n]*/g, ""), nodes = /^\s*nodes\s*=\s*(\d+)/m.exec(plain);
  const links = /^\s*links\s*=\s*(\[[\s\S]*\])/m.exec(plain);
  if (!nodes || !links) throw new Error("a network has `nodes = N` and `links = [[v, p, w, q], ..]`");
  const network = { nodes: Number(nodes[1]), links: linksIn(links[1]) };
  if (network.nodes > MOST_NODES) throw new Error(`a network has at most ${MOST_NODES} nodes, and this one ${nodes[1]}`);
  const isEnd = (number) => Number.isInteger(number) && number >= 0 && number < network.nodes;
  const isLink = (link) => Array.isArray(link) && link.length === 4 && link.every(isEnd);
  const bad = network.links.findIndex((link) => !isLink(link));
  if (bad >= 0) throw new Error(`link ${bad} is no [v, p, w, q] of nodes and ports below ${network.nodes}`);
  return network;
}
function linksIn(text) {
  try { return JSON.parse(text.replace(/,\s*\]/g, "]")); } catch { throw new Error("`links` is no list such as [[0, 0, 1, 1], [1, 0, 2, 1]]"); }
}
function farOf({ nodes, links }) {
  const far = range(nodes).map(() => []);
  for (const [v, p, w, q] of links) { far[v][p] = [w, q]; far[w][q] = [v, p]; }
  return far;
}
// the same with ports numbered by chance
function renumbered(network, random) {
  const names = farOf(network).map((ports) => shuffled(range(ports.length), random));
  return { nodes: network.nodes, links: network.links.map(([v, p, w, q]) => [v, names[v][p], w, names[w][q]]) };
}
const networkText = ({ nodes, links }) =>
  `version = ${nodes > 256 ? 2 : 1}\nnodes = ${nodes}\nlinks = [${links.map((it) => `[${it}]`).join(", ")}]\n`;
const pairs = (ends) => `[${ends.map((it) => `[${it}]`).join(", ")}]`;
function tournamentText({ home, holes, dark, held, quota, board, agents }) {
  const keys = range(agents).map((it) => `"${keyOf(it)}"`).join(", ");
  const isLarge = quota > 1000 || board > 4096;
  return `version = ${isLarge ? 3 : 2}\nseed = "${"0".repeat(64)}"\n\n[[match]]\nteam = "own"\nnetwork = "network.toml"\n` +
    `home = ${home}\nholes = [${holes}]\ndark = ${pairs(dark)}\nquota = ${quota}\nboard = ${board}\nkeys = [${keys}]\n` +
    `held = ${pairs(held)}\n`;
}
// whether an agent that leaves a node by a port never arrives
function isDestroyed({ holes, dark }, far, node, port) {
  const [to, back] = far[node][port];
  return holes.includes(to) || dark.some(([v, p]) => (v === node && p === port) || (v === to && p === back));
}
const keyOf = (agent) => `k${agent}`;

// where each node is drawn, in thousandths of the picture: a ring is a circle, else nodes stand as far apart as the
// ways between them are long, as well as that can be
function layout(network) {
  const far = farOf(network), { nodes } = network;
  const around = ringOf(far);
  if (around) {
    const spots = [];
    around.forEach((node, place) => {
      const turn = 2 * Math.PI * place / nodes;
      spots[node] = [Math.sin(turn), -Math.cos(turn)];
    });
    return fitted(spots);
  }
  const ways = far.map((_, from) => {
    const found = Array(nodes).fill(nodes);
    found[from] = 0;
    for (let queue = [from]; queue.length;) {
      const node = queue.shift();
      for (const [to] of far[node]) if (found[to] === nodes) { found[to] = found[node] + 1; queue.push(to); }
    }
    return found;
  });
  const random = chance(4);
  let spots = far.map((_, node) => [Math.sin(2 * Math.PI * node / nodes) + random() / 9, -Math.cos(2 * Math.PI * node / nodes) + random() / 9]);
  for (let round = 0; round < 300; round++) {
    spots = spots.map(([x, y], node) => {
      let across = 0, down = 0, weights = 0;
      spots.forEach(([a, b], other) => {
        if (other === node) return;
        const way = ways[node][other], weight = 1 / (way * way), apart = Math.hypot(x - a, y - b) || 1e-6;
        across += weight * (a + way * (x - a) / apart);
        down += weight * (b + way * (y - b) / apart);
        weights += weight;
      });
      return [across / weights, down / weights];
    });
  }
  return fitted(spots);
}
function ringOf(far) {
  if (far.some((ports) => ports.length !== 2)) return null;
  const found = [0, far[0][0][0]];
  while (found[found.length - 1] !== 0) {
    const [last, before] = [found[found.length - 1], found[found.length - 2]];
    found.push(far[last].map(([to]) => to).find((to) => to !== before));
  }
  return found.length === far.length + 1 ? found.slice(0, -1) : null;
}
function fitted(spots) {
  const columns = [0, 1].map((axis) => {
    const values = spots.map((spot) => spot[axis]), low = Math.min(...values), width = Math.max(...values) - low || 1;
    return values.map((it) => Math.round((it - low) / width * 1000));
  });
  return spots.map((_, node) => [columns[0][node], columns[1][node]]);
}
if (typeof module !== "undefined") module.exports = { chance, shuffled, networkNamed, networkIn, renumbered, farOf, networkText, tournamentText, layout, keyOf, range, isDestroyed };
