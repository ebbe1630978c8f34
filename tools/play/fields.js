// The fields of the page: which match they ask for.
"use strict";
const byId = (id) => document.getElementById(id);
const OWN = "own", MOST_STATES = 2e6, SCHEDULERS = ["fair", "slow-agents", "slow-links", "last-departed", "starved", "oblivious"];
const NETWORKS = ["ring:8", "ring:3", "ring:4", "ring:5", "ring:6", "ring:12", "ring:16", "complete:4", "hypercube:3", "torus:3x3", "wheel:5", "petersen:5x2"];
const SMALL = ["ring:3", "ring:4", "ring:5", "ring:6", "complete:4"];
// those that a link holds
const FIELDS = ["network", "scheduler", "seed", "agents", "home", "holes", "dark", "held", "quota", "board", "arguments", "text", "small"];

// whether a field may have a value: of a list one of its choices
const fits = (id, value) => byId(id).tagName !== "SELECT" || [...byId(id).options].some((option) => option.value === value);
const numbersIn = (text) => text.split(/[\s,;]+/).filter((part) => part !== "").map(Number);
const endsIn = (text) => text.split(/[\s,;]+/).filter((part) => part !== "").map((part) => part.split(/[.:]/).map(Number));

// the arguments of a program, in which facts of the match stand for their names
function argumentsOf(network, home) {
  const facts = { nodes: network.nodes, links: network.links.length, home };
  return byId("arguments").value.split(/\s+/).filter((word) => word)
    .map((word) => word.replace(/\{(\w+)\}/g, (name, fact) => facts[fact] === undefined ? name : facts[fact]));
}
// A match of the fields. A search is of a small network with one black hole, and of no dark or held links.
function matchOfFields(isSearch, hole) {
  const name = byId(isSearch ? "small" : "network").value, seed = Number(byId("seed").value) || 0;
  let network = name === OWN ? networkIn(byId("text").value) : networkNamed(name);
  if (byId("renumbered").checked) network = renumbered(network, chance(seed + 1));
  const number = (id) => Number(byId(id).value);
  if (!(number("agents") >= 1 && number("agents") <= MOST_AGENTS)) throw new Error(`a match has 1 to ${MOST_AGENTS} agents`);
  const home = isSearch ? 0 : number("home"), drawnHole = 1 + seed % Math.max(1, network.nodes - 1);
  const written = isSearch ? [] : numbersIn(byId("holes").value);
  const match = {
    home, holes: hole !== undefined ? [hole] : written.length ? written : [drawnHole === home ? 0 : drawnHole],
    dark: isSearch ? [] : endsIn(byId("dark").value), held: isSearch ? [] : endsIn(byId("held").value),
    quota: number("quota"), board: number("board"), agents: number("agents"),
  };
  const isOwnText = name === OWN && !byId("renumbered").checked;
  return { network, match, words: argumentsOf(network, home), networkText: isOwnText ? byId("text").value : networkText(network), seed, scheduler: byId("scheduler").value };
}
// A match of an exercise.
function matchOfExercise(exercise, { network: name, scheduler = "fair", seed = 0, holes = [], links }) {
  const own = networkNamed(name), network = links ? { ...own, links } : own;
  const match = { home: 0, holes, dark: [], held: [], quota: 1000, board: 256, agents: exercise.agents };
  return { network, match, words: exercise.isTold ? [network.nodes] : [], networkText: networkText(network), seed, scheduler };
}
// the files by which the program reads a match
const filesOf = (asked) => ({ "tournament.toml": tournamentText(asked.match), "network.toml": asked.networkText });
