// The page: which event, seen by whom.
const MOST_JUMPS = 40;
const byId = (id) => document.getElementById(id);
const pasts = new Map();
// as a part of a page that writes programs: that page is told the place, and names events to go to
const INSIDE = "inside", isInside = window.name === INSIDE;
let data, match, twin, last, place = 0, eyes = -1, playing = null, pictures = [];

function take(given) {
  data = given;
  match = new Match(data.match);
  twin = data.twin && new Match(data.twin);
  last = match.events.length;
  pasts.clear();
  byId("slider").max = last;
}

// the places of an agent's causal past, as a mark for each event
function pastOf(agent) {
  if (!pasts.has(agent)) {
    const marks = new Uint8Array(last);
    let at = 0;
    for (const [gap, count] of data.pasts[agent] || []) {
      marks.fill(1, at + gap, at + gap + count);
      at += gap + count;
    }
    pasts.set(agent, marks);
  }
  return pasts.get(agent);
}
const inTwin = (here) => here - data.twin.struck.filter((it) => it < here).length;

const plural = (count, word) => `${count} ${word}${count === 1 ? "" : "s"}`;
function about() {
  put(byId("title"), data.name);
  const dark = match.dark.length ? `, ${plural(match.dark.length, "dark link")}` : "";
  byId("about").textContent = `${plural(match.nodes, "node")}, ${plural(match.links.length, "link")}, ` +
    `${plural(match.agents, "agent")}, ${plural(match.holes.length, "black hole")}${dark}; ` +
    `${plural(last, "event")}; quota ${match.quota}, whiteboards of ${plural(match.board, "byte")}.`;
  byId("verdict").textContent = `Verdict: ${data.verdict}.` +
    (twin ? ` Of the twin with the black hole at node ${data.twin.node}: ${data.twin.verdict}.` : "");
}
// buttons that lead to each loss and each accusation
function jumps() {
  const found = [];
  match.events.forEach((event, at) => {
    if (event.kind === "v" && !match.reply(at)) found.push([at, `agent ${event.agent} is lost`]);
    if (event.kind === "a" && match.reply(at).ok) found.push([at, `agent ${event.agent} accuses`]);
  });
  byId("jumps").replaceChildren(...found.slice(0, MOST_JUMPS).map(([at, what]) => {
    const button = document.createElement("button");
    button.textContent = `${what}: event ${at + 1}`;
    button.addEventListener("click", () => go(at + 1));
    return button;
  }));
}
function choices() {
  const add = (value, text) => byId("eyes").append(new Option(text, value));
  add(-1, "everybody: the whole match");
  for (let agent = 0; agent < match.agents; agent++) add(agent, `agent ${agent}: only what it met`);
}
function figure(match, words) {
  const [box, head, scroll] = ["figure", "figcaption", "div"].map((name) => document.createElement(name));
  head.textContent = words;
  scroll.className = "scroll";
  scroll.tabIndex = 0;
  scroll.setAttribute("aria-label", words);
  box.append(head, scroll);
  byId("figures").append(box);
  return eyes < 0 ? new Whole(scroll, match) : new Eyes(scroll, match, eyes);
}
function figures() {
  byId("figures").replaceChildren();
  const through = eyes < 0 ? "" : `, through the eyes of agent ${eyes}`;
  pictures = [figure(match, "The match" + through)];
  if (twin) pictures.push(figure(twin, `The twin with the black hole at node ${data.twin.node}` + through));
}
function track() {
  const canvas = byId("marks"), width = canvas.clientWidth || 600;
  canvas.width = width;
  const pen = canvas.getContext("2d");
  if (eyes < 0) return;
  pen.fillStyle = getComputedStyle(document.body).color;
  const each = (width - 16) / last;
  pastOf(eyes).forEach((marked, at) => { if (marked) pen.fillRect(8 + at * each, 0, Math.max(1, each - 1), 10); });
}
function answerWords(event, reply) {
  if (event.kind === "v") return reply ? "" : " No agent is told.";
  if (!reply) return "";
  if (reply.no) return ` Refused: ${reply.no}.`;
  return reply.ok === "changed" ? " Another text stood there." : "";
}
function words(event, reply) {
  const who = `Agent ${event.agent}`;
  const deeds = {
    e: "enters at the home base.", l: "looks.", q: "leaves.", b: "sends a line that is no command.",
    w: "writes.", d: `departs by port ${event.port}.`, a: `accuses the link at port ${event.port}.`,
    v: reply ? "arrives." : "is destroyed.",
  };
  return event.kind === "c" ? "The match is closed." : `${who} ${deeds[event.kind]}${answerWords(event, reply)}`;
}
function tell() {
  byId("count").textContent = `event ${place} of ${last}`;
  const hidden = place > 0 && eyes >= 0 && !owns(place - 1);
  if (place === 0) { byId("says").textContent = "Before the first event: Play shows the match."; put(byId("line"), ""); }
  else if (hidden) { byId("says").textContent = `Agent ${eyes} meets nothing of this event.`; put(byId("line"), ""); }
  else {
    byId("says").textContent = words(match.events[place - 1], match.reply(place - 1));
    put(byId("line"), match.line(place - 1));
  }
  byId("past").textContent = eyes < 0 || place === 0 ? "" : pastOf(eyes)[place - 1]
    ? `\u25cf In the causal past of agent ${eyes}'s last step.`
    : `\u25cb Not in the causal past of agent ${eyes}'s last step.`;
}
// whether the chosen agent meets the event: it is its own, and no destruction
function owns(at) {
  const met = metOf(match, eyes), step = met.steps[met.made(at)];
  return step !== undefined && step.place === at;
}
function row(body, head, text, strange) {
  const line = document.createElement("tr"), one = document.createElement("th"), two = document.createElement("td");
  one.textContent = head;
  one.scope = "row";
  if (strange) { two.className = "text"; put(two, text); } else two.textContent = text;
  line.append(one, two);
  body.append(line);
}
function whereabouts(agent) {
  if (agent.standing === "outside") return "has not entered";
  if (agent.standing === "present") return `at node ${agent.node}`;
  if (agent.standing === "left") return "has left";
  if (agent.standing === "accused") {
    return `accused port ${agent.port} of node ${agent.node}, to node ${match.far[agent.node][agent.port][0]}`;
  }
  return `on the link from node ${agent.node} by port ${agent.port}` + (agent.lost ? ", lost" : "");
}
function tables() {
  const agents = byId("agents"), boards = byId("boards");
  agents.replaceChildren();
  boards.replaceChildren();
  byId("boardtitle").textContent = eyes < 0 ? "Whiteboards" : "Whiteboards, as the agent saw them last";
  if (eyes < 0) {
    const state = match.at(place);
    state.agents.forEach((agent, number) => row(agents, number, whereabouts(agent)));
    state.boards.forEach((text, node) => { if (text) row(boards, `node ${node}`, text, true); });
    return;
  }
  const met = metOf(match, eyes), step = met.steps[met.made(place) - 1];
  const stands = step && (step.ended || (step.link ? `on a link, by port ${step.link[1]}` : "at a node"));
  row(agents, eyes, stands || "has not entered");
  for (const node of met.nodes) {
    const text = node.born < place && met.text(node, place);
    if (text) row(boards, node.id === 0 ? "home" : `met ${node.id}`, text, true);
  }
}
function show() {
  byId("slider").value = place;
  byId("slider").setAttribute("aria-valuetext", `event ${place} of ${last}`);
  pictures[0].show(place);
  if (twin) {
    pictures[1].show(inTwin(place));
    const same = eyes >= 0 && pictures[0].svg.outerHTML === pictures[1].svg.outerHTML;
    byId("same").textContent = eyes < 0 ? "" : same ? "Both pictures are the same." : "The pictures differ.";
  }
  tell();
  tables();
}
function go(to) {
  place = Math.max(0, Math.min(last, to));
  show();
  if (isInside) window.parent.postMessage({ place }, "*");
}
function look(agent) { eyes = agent; byId("eyes").value = agent; figures(); track(); show(); }
function along(step) {
  if (eyes < 0) return;
  const marks = pastOf(eyes);
  for (let at = place - 1 + step; at >= 0 && at < last; at += step) if (marks[at]) return go(at + 1);
}
function play() {
  if (playing) { clearInterval(playing); playing = null; }
  else {
    if (place === last) place = 0;
    playing = setInterval(() => { go(place + 1); if (place === last) play(); }, 400 / Number(byId("speed").value));
  }
  byId("play").textContent = playing ? "Stop" : "Play";
}
const KEYS = {
  ArrowLeft: (fast) => go(place - fast), ArrowRight: (fast) => go(place + fast), Home: () => go(0), End: () => go(last),
  " ": play, p: () => along(-1), n: () => along(1),
};
document.addEventListener("keydown", (pressed) => {
  const key = pressed.key.length === 1 ? pressed.key.toLowerCase() : pressed.key;
  const onControl = pressed.target.tagName === "SELECT" || (key === " " && pressed.target.tagName === "BUTTON");
  if (!KEYS[key] || onControl || pressed.ctrlKey || pressed.altKey || pressed.metaKey) return;
  pressed.preventDefault();
  KEYS[key](pressed.shiftKey ? 10 : 1);
});
// a match that goes on: who looks at its last event sees the next ones as they come
async function follow() {
  const atEnd = place === last, answer = await fetch(`${data.news}/data`);
  if (!answer.ok) return;
  take(await answer.json());
  about();
  jumps();
  figures();
  track();
  go(atEnd ? last : place);
}
byId("speed").addEventListener("change", () => { if (playing) { play(); play(); } });
byId("slider").addEventListener("input", () => go(Number(byId("slider").value)));
byId("back").addEventListener("click", () => go(place - 1));
byId("next").addEventListener("click", () => go(place + 1));
byId("play").addEventListener("click", play);
byId("eyes").addEventListener("change", () => look(Number(byId("eyes").value)));
window.addEventListener("resize", track);
take(JSON.parse(byId("data").textContent));
about();
jumps();
choices();
look(twin ? 0 : -1);
// a match that is over begins with its first event, or with the one that the address names
const named = /^#event(\d+)$/.exec(location.hash);
go(named ? Number(named[1]) : data.news ? last : 0);
if (location.hash === "#play") play();
if (data.news) {
  new EventSource(`${data.news}/news`).onmessage = follow;
}
if (isInside) {
  document.body.classList.add(INSIDE);
  window.addEventListener("message", (said) => {
    if (said.source === window.parent && typeof said.data?.event === "number") go(said.data.event);
  });
}
