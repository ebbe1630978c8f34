// The page on which one writes an agent, has it tried, and watches the match: all of it here.
"use strict";
const KEPT = "arena play";
let last = null, moduleBytes = null, exercise = null, began = 0;

// what one begins with: a kit, a module or an exercise
const STARTS = [...Object.keys(KITS), "module", ...EXERCISES.map((one) => one.name)];
const startNow = () => byId("start").value;
const isModule = () => startNow() === "module";
const kitNow = () => KITS[startNow()] || KITS.javascript;
const mainNow = () => isModule() ? "README.txt" : exercise ? "agent.js" : kitNow().main;
function textsOf(start) {
  const chosen = EXERCISES.find((one) => one.name === start);
  if (chosen) return { "agent.js": chosen.agent, "client.js": KITS.javascript.files["client.js"] };
  return start === "module" ? { "README.txt": MODULE_TEXT } : { ...KITS[start].files };
}
const editor = new Editor(byId("editor"), "careful.js", {
  "Ctrl-Enter": () => run(playNow), "Cmd-Enter": () => run(playNow), Esc: () => byId("play").focus(),
}, WORDS.en.program);

function state(text, name = "") { byId("state").textContent = text; byId("state").className = name; }
const seconds = () => ` (${((performance.now() - began) / 1000).toFixed(1)} s)`;
const right = (text) => state(`\u2713 ${text}${seconds()}`, "right");
const wrong = (text) => state(`\u2717 ${text}${seconds()}`, "wrong-state");
function clear() {
  editor.clear();
  state("");
  byId("said").replaceChildren();
  byId("watch").hidden = byId("written").hidden = true;
}
function setBusy(isBusy) {
  for (const id of ["play", "check", "explore"]) byId(id).disabled = isBusy;
  byId("stop").hidden = !isBusy;
}
// a sentence, which leads to its line if it has one
function say(text, place) {
  const item = document.createElement("li");
  item.textContent = text;
  if (place && place.line) item.append(" ", button(`${words.line} ${place.line}`, () => { editor.go(place); editor.mirror.focus(); }));
  byId("said").append(item);
  return item;
}

async function run(task) {
  if (byId("play").disabled) return;
  clear();
  setBusy(true);
  began = performance.now();
  state("..");
  try {
    await loading;
    await task();
  } catch (fault) { await showFault(fault); }
  setBusy(false);
}
// what came in place of an answer: a misspelled text, a program that never ends, or a fault of the match
async function showFault(fault) {
  let said = fault.message.replace(/^Uncaught /, ""), { place } = fault;
  if (/importScripts/.test(said)) {
    for (const [file, text] of Object.entries(editor.files()).filter(([name]) => name.endsWith(".js"))) {
      const found = await misspelling(text);
      if (found) { ({ said } = found); place = { file, line: found.line }; }
    }
  }
  wrong(said);
  if (!place) return;
  editor.mark({ ...place, said });
  editor.go(place);
}

function taskOf(asked) {
  return { ...asked, module, moduleBytes, language: isModule() ? "module" : "javascript", main: mainNow(), sources: editor.files(), files: filesOf(asked), states: MOST_STATES };
}
async function checked(asked) {
  const task = taskOf(asked);
  if (isModule() && !moduleBytes) throw new Error(`${words.module_file}?`);
  const { status, errors } = await work("check", task);
  if (status) throw new Error(errors.trim());
  return task;
}
const isFaulty = (result) => result.faults.some((fault) => fault);

const playNow = () => exercise ? playExercise() : playMatch();
async function playMatch() {
  const task = await checked(matchOfFields(false));
  const result = await work("play", task);
  show(result, task, []);
  (result.verdict.startsWith("solved") ? right : wrong)(result.verdict);
}
// a match as the checks of exercises read it
const playedMatch = (result, { network, match }) => ({ ...result, network, match, keys: range(match.agents).map(keyOf) });
// what is to be mended in the last of these matches, or, after the last match of the exercise, in all of them together
function lacksOf(matches) {
  const lacks = exercise.check(matches[matches.length - 1]);
  if (lacks.length || matches.length < exercise.matches.length || !exercise.checkAll) return lacks;
  return exercise.checkAll(matches);
}
async function playExercise() {
  const matches = [];
  for (const one of exercise.matches) {
    const task = taskOf(matchOfExercise(exercise, one));
    const result = await work("play", task);
    matches.push(playedMatch(result, task));
    const lacks = isFaulty(result) ? [] : lacksOf(matches);
    show(result, task, lacks);
    if (lacks.length || isFaulty(result) || result.refusals.length) return wrong(`${words.mend} ${matches.length} / ${exercise.matches.length}`);
  }
  if (!await searchesExercise()) return null;
  const next = EXERCISES[EXERCISES.indexOf(exercise) + 1];
  if (next) say("").append(button(`${words.next}: ${next.title}`, () => { byId("start").value = next.name; begin(); }));
  store({ ...kept(), done: { ...kept().done, [exercise.name]: true } });
  showStarts();
  return right(words.right);
}

// whether every schedule solves the small matches of an exercise, if it has any; shows the first that fails
async function searchesExercise() {
  for (const one of exercise.every) {
    const task = taskOf(matchOfExercise(exercise, one));
    const { status, errors, finding } = await work("explore", task, (told) => progress(one, exercise.every, told.visited || 0, told.asked || 0));
    if (!finding) throw new Error(errors.trim().split("\n").pop() || `status ${status}`);
    if (finding.found !== "solves") { await showCounterexample(finding, task); return false; }
  }
  return true;
}

// every schedule, with one black hole after the other
async function exploreNow() {
  if (isModule()) return exploreModule();
  const isEach = byId("every").checked, first = matchOfFields(true);
  const holes = isEach ? range(first.network.nodes).filter((node) => node !== first.match.home) : first.match.holes;
  let states = 0, answers = 0, moves = 0;
  for (const hole of holes) {
    const task = await checked(matchOfFields(true, hole));
    const before = states;
    const { status, errors, finding, counts, asked } = await work("explore", task, (told) => progress(hole, holes, before + (told.visited || 0), answers + (told.asked || 0)));
    if (!finding) throw new Error(errors.trim().split("\n").pop() || `status ${status}`);
    states += counts ? counts.states : 0;
    answers += asked;
    if (finding.found !== "solves") return showCounterexample(finding, task);
    moves = Math.max(moves, finding.moves);
  }
  say(`At most ${moves} moves. ${states.toLocaleString("en")} states were looked at, and your program answered ${answers.toLocaleString("en")} questions: what it does after it was told so much. That it always does so is not proved.`);
  return right(`${words.solves} ${byId("small").value}${isEach ? `, ${words.each} (${holes.length})` : ""}`);
}
function progress(search, searches, states, answers) {
  state(`.. ${searches.indexOf(search) + 1} / ${searches.length}: ${states.toLocaleString("en")} ${words.states}, ${answers.toLocaleString("en")} ${words.answers}`);
}
async function exploreModule() {
  const task = { ...await checked(matchOfFields(true)), isEachHole: byId("every").checked };
  const { status, errors, lines } = await work("exploreModule", task);
  const finding = lines.filter((line) => line.found).pop();
  if (!finding) throw new Error(errors.trim() || `status ${status}`);
  if (finding.found === "solves") {
    say(`At most ${Math.max(...lines.map((line) => line.moves || 0))} moves. The proved program says so by a theorem: arena explore tournament.toml 0 --module FILE.`);
    return right(`${words.solves} ${byId("small").value}`);
  }
  const failure = lines.filter((line) => line.failure).pop(), at = lines.filter((line) => line.hole !== undefined).pop();
  if (failure) say(`${failure.failure} in function ${failure.function}`);
  return showCounterexample(finding, at ? taskOf(matchOfFields(true, at.hole)) : task);
}
const FINDINGS = {
  fails: ({ outcome }) => `a schedule fails: ${outcome}`,
  breaks: ({ agent, failure }) => `under a schedule agent ${agent} fails (${failure})`,
  endless: () => "a schedule goes on for ever",
  exceeds: ({ agent, commands }) => `agent ${agent} may use ${commands} commands, more than its quota`,
};
// the schedule that a search has found is played, and shown
async function showCounterexample(finding, task) {
  const turns = [...(finding.schedule || []), ...(finding.round || [])];
  if (finding.schedule) {
    const result = await work("play", { ...task, turns });
    const lacks = exercise ? exercise.check(playedMatch(result, task)) : [];
    show(result, task, [...lacks, `Black hole at node ${task.match.holes}. The turns of the agents: ${turns.join(" ")}.`], 0);
  }
  wrong(FINDINGS[finding.found](finding));
}

const REFUSALS = {
  line: "it is no command", port: "the node has no such port", long: "the text is longer than the whiteboard", spent: "all commands are used up",
  twice: "it has entered before", outside: "it has not entered", ended: "it has ended", key: "no agent has this key", taken: "the key is used",
  enter: "the first line was no enter", away: "it is on a link",
};
// what was wrong in a match, each with its line: refused lines, faults, agents that hang, and wrong accusations
function marksOf(result, task) {
  const refusals = result.refusals.slice(0, 5).map((one) => ({ said: `agent ${one.agent}: ${one.line.slice(0, 80)} was refused: ${one.why}, ${REFUSALS[one.why] || ""}`, ...one.place }));
  const faults = result.faults.map((fault, agent) => fault && { said: `agent ${agent}: ${fault.said}`, ...fault.place }).filter((mark) => mark);
  const hanging = result.hangs.map((hangs, agent) => hangs && { said: `agent ${agent} does nothing more, and has not left: close it at the end` }).filter((mark) => mark);
  const accusations = result.events.map((event, at) => ({ event, at })).filter(({ event, at }) => event.do === "accuse" && event.reply.ok && !exercise && !isRightAccusation(result.events, task, at));
  const wrongAccusations = accusations.map(({ event, at }) => ({ said: `agent ${event.agent} accuses a port here that leads to a safe node`, ...result.sources[at], event: at + 1 }));
  return [...refusals, ...faults, ...hanging, ...wrongAccusations];
}
function show(result, task, sentences, first = null) {
  last = result;
  clear();
  for (const text of sentences) say(text);
  const marks = [...new Map(marksOf(result, task).map((mark) => [mark.said, mark])).values()];
  for (const mark of marks) {
    say(mark.said, mark);
    if (mark.line) editor.mark(mark, mark.event && button(`${words.event} ${mark.event}`, () => goToEvent(mark.event)));
  }
  const atLine = marks.find((mark) => mark.line), atEvent = marks.find((mark) => mark.event);
  if (atLine) editor.go(atLine);
  const printed = result.printed.map((text, agent) => text && `agent ${agent}:\n${text}`).filter((text) => text).join("\n");
  byId("written").hidden = !printed;
  byId("written").querySelector("pre").textContent = printed;
  const name = exercise ? exercise.title : byId("network").selectedOptions[0].textContent;
  watch(replayData(name, result), first !== null ? first : atEvent ? atEvent.event : null);
}
function watch(data, at) {
  const frame = byId("watch");
  frame.hidden = false;
  frame.onload = () => frame.contentWindow.postMessage({ shown: data, at }, "*");
  frame.src = `replay.html?${Date.now()}`;
}
const goToEvent = (event) => byId("watch").contentWindow.postMessage({ event }, "*");
// the match says at which place it is: these lines have sent last
addEventListener("message", ({ source, data }) => {
  if (source !== byId("watch").contentWindow || typeof data?.place !== "number" || !last) return;
  const sent = new Map();
  last.events.slice(0, data.place).forEach(({ agent }, at) => { if (agent !== undefined && last.sources[at]) sent.set(agent, last.sources[at]); });
  editor.shade([...sent].map(([agent, place]) => [place, `sent${agent % 3}`]));
});

// what is written is kept in this browser
function kept() { try { return JSON.parse(localStorage.getItem(KEPT)) || {}; } catch { return {}; } }
function store(all) {
  try {
    localStorage.setItem(KEPT, JSON.stringify(all));
    byId("saved").textContent = words.kept;
  } catch { byId("saved").textContent = words.not_kept; }
}
const keep = () => store({ ...kept(), start: startNow(), files: { ...kept().files, [startNow()]: editor.files() } });

function begin(files) {
  clear();
  exercise = EXERCISES.find((one) => one.name === startNow()) || null;
  byId("exercise").hidden = !exercise;
  if (exercise) {
    byId("exercise").querySelector("h2").textContent = exercise.title;
    const [text, hint] = byId("exercise").querySelectorAll("p");
    text.textContent = exercise.text;
    hint.textContent = exercise.hint;
    byId("exercise").querySelector("details").open = false;
  }
  for (const one of document.querySelectorAll(".own")) one.hidden = Boolean(exercise);
  byId("module").hidden = !isModule();
  editor.main = editor.current = mainNow();
  editor.take(files || (kept().files || {})[startNow()] || textsOf(startNow()));
  for (const doc of Object.values(editor.docs)) doc.on("change", keep);
}
function showStarts() {
  const chosen = startNow(), done = kept().done || {}, group = document.createElement("optgroup");
  group.label = words.exercises;
  group.append(...EXERCISES.map((one, number) => new Option(`${done[one.name] ? "\u2713 " : ""}${number + 1}. ${one.title}`, one.name)));
  byId("start").replaceChildren(...Object.entries(KITS).map(([name, kit]) => new Option(kit.title, name)), new Option(words.a_module, "module"), group);
  if (chosen) byId("start").value = chosen;
}
function showOwnNetwork() {
  const isOwn = byId("network").value === OWN;
  byId("toml").hidden = !isOwn;
  if (!isOwn) return;
  byId("match").open = true;
  if (!byId("text").value) byId("text").value = networkText(networkNamed("ring:4"));
}

async function share() {
  const begun = textsOf(startNow());
  const files = Object.fromEntries(Object.entries(editor.files()).filter(([name, text]) => begun[name] !== text));
  const fields = Object.fromEntries(FIELDS.map((id) => [id, byId(id).value]));
  history.replaceState(null, "", `#${await fragmentOf({ version: 1, start: startNow(), files, fields, renumbered: byId("renumbered").checked })}`);
  const size = `${location.href.length} ${words.characters}`;
  try { await navigator.clipboard.writeText(location.href); byId("shared").textContent = `${words.copied}: ${size}`; } catch { byId("shared").textContent = `${words.in_bar}: ${size}`; }
}
// a match that a link holds: the program judges and explains it, and no agent runs
async function showReplay(replay) {
  const result = await work("replay", { module, replay });
  last = result;
  watch(replayData(words.replay, result), null);
  say(words.replay_here);
  (result.verdict.startsWith("solved") ? right : wrong)(result.verdict);
}
// Takes what a link holds, and runs nothing of it.
async function takeLink() {
  if (location.hash.length < 2) return false;
  const shared = await sharedIn(location.hash.slice(1), STARTS, FIELDS);
  if (!shared) {
    byId("saved").textContent = words.bad_link;
    return false;
  }
  if (shared.replay !== undefined) {
    if (STARTS.includes(kept().start)) byId("start").value = kept().start;
    begin();
    run(() => showReplay(shared.replay));
    return true;
  }
  byId("start").value = shared.start;
  for (const [id, value] of Object.entries(shared.fields)) byId(id).value = value;
  byId("renumbered").checked = shared.renumbered === true;
  begin({ ...textsOf(shared.start), ...shared.files });
  byId("saved").textContent = words.from_link;
  showOwnNetwork();
  return true;
}
function download() {
  const link = document.createElement("a"), kit = kitNow();
  link.href = URL.createObjectURL(zipOf({ ...kit.more, ...editor.files() }));
  link.download = "my-agent.zip";
  link.click();
  byId("shared").textContent = `${words.hand_in} ${kit.command.replace(kit.main, mainNow())}`;
}
async function takeModule({ target }) {
  if (!target.files.length) return;
  moduleBytes = new Uint8Array(await target.files[0].arrayBuffer());
  byId("file-name").textContent = `${target.files[0].name}: ${moduleBytes.length.toLocaleString("en")} bytes`;
}
function showTongue(tongue) {
  showWords(tongue);
  byId("tongue").value = document.documentElement.lang;
  editor.mirror.getInputField().setAttribute("aria-label", words.program);
  byId("network").replaceChildren(...NETWORKS.map((name) => new Option(name)), new Option(words.own, OWN));
  showStarts();
}

byId("play").addEventListener("click", () => run(playNow));
byId("check").addEventListener("click", () => run(checkNow));
byId("explore").addEventListener("click", () => run(exploreNow));
byId("stop").addEventListener("click", () => { if (worker) worker.stop(); });
byId("share").addEventListener("click", share);
byId("download").addEventListener("click", download);
byId("file").addEventListener("change", takeModule);
byId("network").addEventListener("change", showOwnNetwork);
byId("start").addEventListener("change", () => { begin(); keep(); });
byId("anew").addEventListener("click", () => { if (confirm(words.give_up)) { begin(textsOf(startNow())); keep(); } });
byId("tongue").addEventListener("change", ({ target }) => {
  showTongue(target.value);
  store({ ...kept(), tongue: target.value });
});
byId("small").append(...SMALL.map((name) => new Option(name)));
byId("scheduler").append(...SCHEDULERS.map((name) => new Option(name)));
showTongue(kept().tongue || navigator.language.slice(0, 2));
addEventListener("hashchange", takeLink);
takeLink().then((isTaken) => {
  if (isTaken) return;
  if (STARTS.includes(kept().start)) byId("start").value = kept().start;
  const said = byId("saved").textContent;
  begin();
  byId("saved").textContent = said;
});
