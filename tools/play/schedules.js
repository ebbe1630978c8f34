// Schedules: which of the possible steps of a match comes next. A step is { does, agent, place, since }.
"use strict";
const PACES = [0.02, 0.3, 1, 1, 5];

// the pace of a link or an agent, which is drawn once
function paceOf(paces, key, random) {
  if (!paces.has(key)) paces.set(key, PACES[Math.floor(random() * PACES.length)]);
  return paces.get(key);
}
const drawn = (steps, random) => steps[Math.floor(random() * steps.length)];
function drawnByWeight(steps, random, weight) {
  const weights = steps.map(weight);
  let left = random() * weights.reduce((sum, one) => sum + one, 0);
  return steps.find((_, place) => (left -= weights[place]) < 0) || steps[steps.length - 1];
}

const SCHEDULES = {
  fair: (random) => (steps) => drawn(steps, random),
  "slow-agents": (random) => {
    const paces = new Map();
    const weight = ({ does, agent }) => does === "wake" ? 0.05 : paceOf(paces, `${does} ${agent}`, random);
    return (steps) => drawnByWeight(steps, random, weight);
  },
  "slow-links": (random) => {
    const paces = new Map();
    const weight = ({ does, place }) => does === "arrive" ? paceOf(paces, String(place), random) : 1;
    return (steps) => drawnByWeight(steps, random, weight);
  },
  "last-departed": (random) => (steps) => {
    const others = steps.filter((step) => step.does !== "arrive");
    if (others.length) return drawn(others, random);
    return steps.reduce((last, step) => step.since > last.since ? step : last);
  },
  // nothing happens to the agent whose number is the seed, counted round the team, as long as anything else can happen
  starved: (random, seed) => (steps, agents) => {
    const others = steps.filter((step) => step.agent !== seed % agents);
    return drawn(others.length ? others : steps, random);
  },
  // whose turn it is does not depend on what the agents do
  oblivious: (random) => (steps, agents) => {
    for (;;) {
      const agent = Math.floor(random() * agents), step = steps.find((one) => one.agent === agent);
      if (step) return step;
    }
  },
};
// the agents whose turns a search has found, in their order; after them the first step of any
function recordedSchedule(agents) {
  const left = agents.slice();
  return (steps) => {
    while (left.length) {
      const agent = left.shift(), step = steps.find((one) => one.agent === agent);
      if (step) return step;
    }
    return steps.find((step) => step.does !== "wake") || steps[0];
  };
}
