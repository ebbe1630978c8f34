// What the page asks of its worker: a match, every schedule of one, or what the program prints.
"use strict";
function programsOf(task, isExplored) {
  return range(task.match.agents).map((agent) => {
    const options = { seed: task.seed * 97 + agent, isExplored, key: keyOf(agent) };
    if (task.language === "module") return new ModuleProgram(task.agentModule, task.words, options);
    return new JsProgram(task.main, ["127.0.0.1", "4000", keyOf(agent), ...task.words], options);
  });
}
const linesOf = (text) => text.split("\n").filter((line) => line).map((line) => JSON.parse(line));

const TASKS = {
  play(task) {
    const choose = task.turns ? recordedSchedule(task.turns) : SCHEDULES[task.scheduler](chance(task.seed), task.seed);
    return new Player(task, programsOf(task, false), choose).play();
  },
  explore: (task) => explore(task, programsOf(task, true)),
  exploreModule(task) {
    const word = `agent.wasm${task.words.length ? `:${task.words.join(",")}` : ""}`;
    const more = ["--max-states", String(task.states), ...(task.isEachHole ? ["--all-holes"] : [])];
    const files = { ...task.files, "agent.wasm": task.moduleBytes };
    const { status, errors, printed } = outputOf(task.module, files, ["explore", "tournament.toml", "0", "--module", word, ...more]);
    return { status, errors, lines: linesOf(printed) };
  },
  replay: ({ module, replay }) => resultOfReplay(module, replay),
  check: (task) => outputOf(task.module, task.files, ["check", "tournament.toml"]),
};
self.onmessage = async ({ data: { kind, task } }) => {
  postMessage({ begun: true });
  try {
    if (task.language === "javascript" && kind !== "check") loadJs(task.sources);
    if (task.language === "module" && kind === "play") task.agentModule = await WebAssembly.compile(task.moduleBytes);
    postMessage({ result: await TASKS[kind](task) });
  } catch (fault) { postMessage({ failed: String(fault && fault.message || fault), place: fault && fault.place || null }); }
};
