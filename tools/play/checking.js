// A check before an agent is handed in: what `arena-lab check` plays, as far as it needs no sandbox and no clock.
"use strict";
const RINGS = [3, 4, 5, 6, 7, 8, 12].map((nodes) => `ring:${nodes}`), DRAWN = 30, SEARCHED = ["ring:4", "ring:5"];

// a match whose home base, black hole and ports are drawn
function matchDrawn(name, scheduler, seed) {
  const random = chance(seed), plain = name === OWN ? networkIn(byId("text").value) : networkNamed(name);
  const network = renumbered(plain, random), home = Math.floor(random() * network.nodes);
  const hole = (home + 1 + Math.floor(random() * (network.nodes - 1))) % network.nodes;
  const match = { ...matchOfFields(false).match, home, holes: [hole], dark: [], held: [] };
  return { network, match, words: argumentsOf(network, home), networkText: networkText(network), seed, scheduler };
}
// the matches of a check: rings, or the network that is chosen if it is no ring
function matchesOfCheck() {
  const name = byId("network").value, first = Number(byId("seed").value) || 0;
  const names = name.startsWith("ring:") ? RINGS : range(RINGS.length).map(() => name);
  const some = names.flatMap((one, number) => ["fair", "slow-agents"].map((scheduler) => [one, scheduler, first + number]));
  const more = range(DRAWN).map((number) => [names[2 + number % 3], SCHEDULERS[number % SCHEDULERS.length], first + 100 + number]);
  return [...some, ...more].map((one) => ({ asked: one, ...matchDrawn(...one) }));
}
const saidOf = ([name, scheduler, seed]) => `${name === OWN ? words.own : name}, ${scheduler}, ${words.seed} ${seed}`;

async function checkNow() {
  const matches = matchesOfCheck();
  await checked(matches[0]);
  for (const [number, { asked, ...one }] of matches.entries()) {
    state(`.. ${number + 1} / ${matches.length}: ${saidOf(asked)}`);
    const task = taskOf(one), result = await work("play", task);
    if (isFaulty(result) || result.refusals.length || !result.verdict.startsWith("solved")) {
      show(result, task, [`${saidOf(asked)}: ${words.drawn_match}`]);
      return wrong(`${result.verdict}: ${words.mend} ${number + 1} / ${matches.length}`);
    }
  }
  const isRing = byId("network").value.startsWith("ring:"), names = isRing ? SEARCHED : [];
  for (const name of names) {
    const found = await searchedAll(name);
    if (found) return found;
  }
  say(`${matches.length} ${words.drawn_matches}${names.length ? `; ${words.explore}: ${names.join(", ")}` : ""}`);
  say(words.left_out);
  return right(words.checked);
}
// tries every schedule of a small network with each black hole; shows the first that fails
async function searchedAll(name) {
  byId("small").value = name;
  byId("every").checked = true;
  await exploreNow();
  return byId("state").className !== "right";
}
