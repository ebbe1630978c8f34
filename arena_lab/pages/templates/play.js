"use strict";
const by = (id) => document.getElementById(id);
const PLACES = {
  "outside": "has not entered yet", "on a link": "is on a link; nothing is heard of it", "ended": "has ended",
  "the match is over": "was told that the match is over",
};
let now = 0, seen = null;

async function ask(path, object) {
  const how = object === undefined ? {} :
    { method: "POST", headers: { "Content-Type": "application/json" }, body: JSON.stringify(object) };
  const answer = await fetch(path, how);
  if (answer.ok) seen = await answer.json();
  show();
}

const say = (command) => ask("/say", { agent: now, command });
const choose = (agent) => { now = agent; show(); };
const next = () => choose((now + 1) % seen.agents.length);
const port = (number) => say({ do: by("accuse").checked ? "accuse" : "depart", port: number });

function svg(name, attributes, text) {
  const made = document.createElementNS("http://www.w3.org/2000/svg", name);
  for (const [key, value] of Object.entries(attributes)) made.setAttribute(key, value);
  if (text !== undefined) made.textContent = text;
  return made;
}

function button(text, act, more = {}) {
  const made = document.createElement("button");
  made.textContent = text;
  made.addEventListener("click", act);
  for (const [key, value] of Object.entries(more)) made.setAttribute(key, value);
  return made;
}

/** The node as the agent sees it: its ports around it, the one by which it came in another colour. */
function drawing(agent) {
  if (agent.standing !== "at a node") return [svg("text", {}, "?")];
  const parts = [];
  for (let number = 0; number < agent.ports; number += 1) {
    const turn = 2 * Math.PI * number / agent.ports, x = -Math.cos(turn), y = Math.sin(turn);
    parts.push(svg("line", { x1: 30 * x, y1: 30 * y, x2: 78 * x, y2: 78 * y, class: number === agent.came ? "came" : "" }));
    parts.push(svg("text", { x: 90 * x, y: 90 * y }, number));
  }
  parts.push(svg("circle", { r: 30 }), svg("text", {}, `agent ${now}`));
  return parts;
}

function sentence(agent) {
  if (agent.standing !== "at a node") return `Agent ${now} ${PLACES[agent.standing]}.`;
  const came = agent.came === null ? "by no port" : `by port ${agent.came}`;
  return `Agent ${now} is at a node with ports 0 to ${agent.ports - 1}; it came ${came}.`;
}

function show() {
  const agent = seen.agents[now], isHere = agent.standing === "at a node" && !seen.over;
  by("agents").replaceChildren(...seen.agents.map((it, number) => button(`agent ${number}: ${it.standing}`,
    () => choose(number), { role: "tab", "aria-selected": String(number === now) })));
  by("where").textContent = sentence(agent);
  by("node").replaceChildren(...drawing(agent));
  by("ports").className = by("accuse").checked ? "accusing" : "";
  by("ports").replaceChildren(...(isHere ? [...Array(agent.ports).keys()].map((number) =>
    button(`${by("accuse").checked ? "accuse" : "port"} ${number}`, () => port(number))) : []));
  by("text").textContent = agent.standing === "at a node" ? agent.board : "";
  by("lines").textContent = agent.lines.map(([isSaid, text]) => `${isSaid ? ">" : "<"} ${text}`).join("\n");
  for (const id of ["look", "leave"]) by(id).disabled = !isHere;
  for (const it of by("write").elements) it.disabled = !isHere;
  by("enter").disabled = agent.standing !== "outside" || seen.over;
  by("wait").disabled = by("end").disabled = seen.over;
  by("over").hidden = !seen.over;
}

by("enter").addEventListener("click", () => say({ do: "enter" }));
by("look").addEventListener("click", () => say({ do: "look" }));
by("leave").addEventListener("click", () => say({ do: "leave" }));
by("wait").addEventListener("click", () => ask("/wait", {}));
by("next").addEventListener("click", next);
by("end").addEventListener("click", () => ask("/end", {}));
by("accuse").addEventListener("change", show);
by("write").addEventListener("submit", (event) => {
  event.preventDefault();
  say({ do: "write", expect: seen.agents[now].board, put: by("put").value });
  by("put").value = "";
});
document.addEventListener("keydown", (event) => {
  if (event.target === by("put") || event.ctrlKey || event.metaKey || event.altKey || seen === null) return;
  if (/^[0-9]$/.test(event.key) && Number(event.key) < by("ports").childElementCount) port(Number(event.key));
  else if (event.key === "t") by("wait").click();
  else if (event.key === "n") next();
  else if (event.key === "l") by("look").click();
  else if (event.key === "a") { by("accuse").checked = !by("accuse").checked; show(); }
});
ask("/seen");
