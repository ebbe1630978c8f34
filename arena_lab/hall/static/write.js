// The page on which one writes a program, has it tried, and watches the match.
"use strict";
const byId = (id) => document.getElementById(id), given = (id) => JSON.parse(byId(id).textContent);
const draft = given("draft"), words = given("words"), secret = document.querySelector("#secret input").value;
const KEPT = `draft ${draft.team} ${draft.language}`, GOES_ON = ["waiting", "held", "running"], KINDS = ["play", "check", "explore"];
// milliseconds after which a change is saved, and tried again if that failed
const SAVE = 1500, AGAIN = 15000;
let { version } = draft, trial = null, timer = null, isSaving = false, isStopped = false;

async function rest(method, path, body) {
  const answer = await fetch(path, {
    method, credentials: "same-origin", headers: { "Content-Type": "application/json", "X-CSRFToken": secret, "X-Writer": draft.team },
    body: body === undefined ? undefined : JSON.stringify(body),
  });
  const told = await answer.json().catch(() => ({}));
  if (answer.ok) return told;
  throw Object.assign(new Error(told.error || String(answer.status)), { status: answer.status, after: Number(answer.headers.get("Retry-After")) });
}
const editor = new Editor(byId("editor"), draft.main, {
  "Ctrl-Enter": () => ask("play"), "Cmd-Enter": () => ask("play"), Esc: () => byId("play").focus(),
}, words.program);

// what was written is in this browser at once, and with the hall a moment later
const note = (text) => { byId("saved").textContent = text; };
function keep() {
  try { localStorage.setItem(KEPT, JSON.stringify({ version, files: editor.files() })); } catch { /* it has no room, or none is given */ }
}
async function save() {
  clearTimeout(timer);
  timer = isSaving ? setTimeout(save, SAVE) : null;
  if (isSaving) return;
  isSaving = true;
  note(words.saving);
  const files = editor.files();
  try {
    ({ version } = await rest("PUT", `/api/drafts/${draft.language}`, { files, version }));
    note(words.saved);
    if (!timer) localStorage.removeItem(KEPT);
  } catch (fault) {
    if (fault.status === 409) offer(fault.message);
    else {
      note(`${words.unsaved}: ${fault.message}`);
      timer = timer || setTimeout(save, AGAIN);
    }
  } finally { isSaving = false; }
}
// somebody else has changed it: what the hall has, or what is here
async function offer(said) {
  clearTimeout(timer);
  note(`${said} `);
  const theirs = await rest("GET", `/api/drafts/${draft.language}`);
  byId("saved").append(
    button(words.theirs, () => { version = theirs.version; take(theirs.files); note(words.saved); localStorage.removeItem(KEPT); }), " ",
    button(words.mine, () => { version = theirs.version; keep(); save(); }));
}
function take(files) {
  editor.take(files);
  for (const doc of Object.values(editor.docs)) doc.on("change", () => { keep(); clearTimeout(timer); timer = setTimeout(save, SAVE); });
}

function state(text, name = "") {
  byId("state").textContent = text;
  byId("state").className = name;
}
function clear() {
  editor.clear();
  byId("said").replaceChildren();
  byId("watch").hidden = byId("written").hidden = true;
}
function busy(is) {
  for (const kind of KINDS) byId(kind).disabled = is;
  byId("stop").hidden = !is;
}
async function ask(kind) {
  if (byId("play").disabled) return;
  clear();
  busy(true);
  state(words.waits);
  trial = null;
  isStopped = false;
  const began = performance.now();
  try {
    trial = await begun({
      language: draft.language, files: editor.files(), kind, seed: Number(byId("seed").value),
      network: byId(kind === "explore" ? "small" : "network").value, scheduler: byId("scheduler").value,
    });
    if (trial) {
      // the button may have been faster than the hall
      if (isStopped) await close();
      await follow(began);
    } else state(words.stopped, "wrong-state");
  } catch (fault) { state(fault.message, "wrong-state"); }
  busy(false);
  earlier();
}
// asks until the hall takes it: another member's program is being tried, or there were too many requests
async function begun(asked) {
  while (!isStopped) {
    try { return await rest("POST", "/api/trials", asked); } catch (fault) {
      if (fault.status !== 429 || !fault.after) throw fault;
      state(`${words.waits}: ${fault.message}`);
      await new Promise((done) => { setTimeout(done, 1000 * fault.after); });
    }
  }
  return null;
}
async function follow(began) {
  const seconds = () => (performance.now() - began) / 1000;
  let wait = 300;
  while (GOES_ON.includes(trial.state)) {
    await new Promise((done) => { setTimeout(done, wait); });
    wait = seconds() < 4 ? 300 : seconds() < 15 ? 1000 : 2000;
    try { trial = await rest("GET", `/api/trials/${trial.id}`); } catch (fault) {
      // the hall does not answer, or was asked too often: ask again
      if (fault.status && fault.status !== 429) throw fault;
      wait = 1000 * (fault.after || 2);
    }
    if (trial.state === "running") state(`${words[trial.kind]} .. ${seconds().toFixed(0)} ${words.seconds}`);
  }
  show(` (${seconds().toFixed(1)} ${words.seconds})`);
}
function show(behind) {
  const { found } = trial;
  if (!found) return state(trial.state === "cancelled" ? words.stopped : `${words.failed}: ${trial.fault}`, "wrong-state");
  const word = found.verdict || (found.right ? words.right : words.mend);
  state(`${found.right ? "\u2713" : "\u2717"} ${word}${behind}`, found.right ? "right" : "wrong-state");
  byId("said").replaceChildren(...found.said.map((text) => sentence(text, found.marks)));
  for (const it of found.marks) editor.mark(it, it.event && button(`${words.event} ${it.event}`, () => event(it.event)));
  if (found.marks.length) editor.go(found.marks[0]);
  const next = nextExercise();
  if (found.right && next) byId("said").append(next);
  const printed = Object.entries(found.written).map(([agent, text]) => `${words.agent} ${agent}:\n${text}`).join("\n\n");
  byId("written").hidden = !printed;
  byId("written").querySelector("pre").textContent = printed;
  byId("watch").hidden = !trial.page;
  const first = found.marks.find((it) => it.event);
  if (trial.page) byId("watch").src = `${trial.page}#${first ? `event${first.event}` : "play"}`;
}
// an exercise that is done leads to the next one
function nextExercise() {
  const list = byId("language"), chosen = list.selectedOptions[0];
  const next = chosen.closest("optgroup") && chosen.nextElementSibling;
  if (!next) return null;
  const item = document.createElement("li");
  item.append(button(`${words.next}: ${next.textContent}`, () => { location.search = `?language=${next.value}`; }));
  return item;
}
// a sentence, which leads to its line if it is of one
function sentence(text, marks) {
  const item = document.createElement("li"), place = marks.find((it) => it.said === text);
  item.textContent = text;
  if (place) item.append(" ", button(`${words.line} ${place.line}`, () => { editor.go(place); editor.mirror.focus(); }));
  return item;
}
const event = (number) => byId("watch").contentWindow.postMessage({ event: number }, "*");
// the match says at which place it is: these lines have sent last
addEventListener("message", (said) => {
  if (said.source !== byId("watch").contentWindow || typeof said.data?.place !== "number") return;
  const last = new Map();
  for (const [agent, file, line] of trial?.found?.lines.slice(0, said.data.place) || []) if (line) last.set(agent, { file, line });
  editor.shade([...last].map(([agent, it]) => [it, `sent${agent % 3}`]));
});

async function earlier() {
  const found = await rest("GET", "/api/trials").catch(() => []), list = byId("earlier");
  list.replaceChildren(list.firstElementChild, ...found.filter((it) => it.language === draft.language).map((it) => {
    const came = it.verdict || (it.right === null ? it.state : it.right ? words.right : words.mend);
    return new Option(`${it.asked.slice(5, 16).replace("T", " ")} ${words[it.kind]} ${it.network}: ${came}`, it.id);
  }));
}
byId("earlier").addEventListener("change", async ({ target }) => {
  const number = target.value;
  target.value = "";
  if (!number) return;
  clear();
  const files = await rest("GET", `/api/trials/${number}/files`);
  trial = await rest("GET", `/api/trials/${number}`);
  take(files);
  show("");
  keep();
  save();
});
byId("clear").addEventListener("click", async () => {
  const { limit, ...space } = await rest("GET", "/api/space"), mega = (size) => (size / 2 ** 20).toFixed(1);
  const takes = Object.entries(space).filter(([, size]) => size).map(([name, size]) => `${words[name]} ${mega(size)} MB`);
  if (!confirm(`${takes.join(", ")} (${words.limit} ${mega(limit)} MB). ${words.clear}`)) return;
  await rest("DELETE", "/api/trials");
  earlier();
});
for (const kind of KINDS) byId(kind).addEventListener("click", () => ask(kind));
const close = () => rest("POST", `/api/trials/${trial.id}/close`).catch(() => {});
byId("stop").addEventListener("click", () => {
  isStopped = true;
  if (trial) close();
});
byId("anew").addEventListener("click", () => {
  if (!confirm(words.anew)) return;
  clear();
  take(draft.kit);
  keep();
  save();
});
byId("language").addEventListener("change", ({ target }) => { location.search = `?language=${target.value}`; });
for (const one of document.querySelectorAll(".hand-in")) one.addEventListener("click", async () => {
  const contest = one.dataset.contest ? Number(one.dataset.contest) : null, link = document.createElement("a");
  try {
    const made = await rest("POST", `/api/drafts/${draft.language}/hand-in`, { files: editor.files(), contest });
    link.href = "/hand-ins";
    link.textContent = `${words.handed_in} ${made.id}`;
    byId("handed").replaceChildren(link);
  } catch (fault) { byId("handed").textContent = fault.message; }
});
// what this browser has and the hall does not
function mine() {
  try { return JSON.parse(localStorage.getItem(KEPT)); } catch { return null; }
}
const left = mine();
take(left && left.files ? left.files : draft.files);
if (!left || JSON.stringify(left.files) === JSON.stringify(draft.files)) note(words.saved);
else if (left.version === version) save();
else offer(words.old);
earlier();
