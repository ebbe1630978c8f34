// Every schedule of a match in the worker: `arena explore` asks what a program does after what it was told.
"use strict";
// how many programs are kept to go on, and how often the page is told of progress, in milliseconds
const MOST_KEPT = 4096, TELL = 50;

class Host {
  constructor(programs) { Object.assign(this, { programs, memories: [], numbers: new Map(), kept: new Map(), asked: 0, toldAt: 0 }); }

  // a memory is the history of an agent, by its number
  async answer(line) {
    const question = JSON.parse(line);
    if (question.visited !== undefined) { postMessage({ visited: question.visited }); return ""; }
    const isNew = question.begin !== undefined;
    const { role, history: before } = isNew ? { role: question.begin, history: [] } : this.memories[question.ask];
    const heard = isNew ? [] : [question.wakes ? WAKE : /"hears":(.*)\}$/.exec(line)[1]];
    const history = [...before, ...heard], key = keyOfHistory(role, history);
    if (!this.numbers.has(key)) {
      this.numbers.set(key, this.memories.length);
      this.memories.push({ role, history, step: await this.step(role, history, keyOfHistory(role, before)) });
    }
    this.asked += 1;
    const number = this.numbers.get(key);
    return `${number} ${this.memories[number].step}`;
  }
  tell(role) {
    if (performance.now() < this.toldAt + TELL) return;
    this.toldAt = performance.now();
    postMessage({ asked: this.asked, agent: role, place: null });
  }

  async step(role, history, keyBefore) {
    this.tell(role);
    // a program that stands at the history before goes on, else one is started again
    const kept = this.kept.get(keyBefore);
    this.kept.delete(keyBefore);
    const program = kept || this.programs[role].anew();
    const state = await program.told(kept ? history.slice(-1) : history);
    if (this.kept.size < MOST_KEPT) this.kept.set(keyOfHistory(role, history), program);
    if (state.fault) return "fails\n";
    const last = history[history.length - 1];
    if (history.some((line) => FINAL.test(line))) return "stops\n";
    if (last === GONE) {
      if (state.isAsleep) await this.refuseClockOnLink(role, history);
      return "stops\n";
    }
    const replies = history.filter((line) => line !== WAKE && line !== GONE).length;
    if (state.sent.length > replies) return `says\n${state.sent[replies].line}\n`;
    if (state.isAsleep) return "sleeps\n";
    return state.isClosed && replies > 0 ? 'says\n{"do":"leave"}\n' : "stops\n";
  }
  // on a link an agent sees nothing, so what it does when it wakes there is done by the clock
  async refuseClockOnLink(role, history) {
    const { sent, isAsleep } = await this.programs[role].anew().told([...history, ...Array(3).fill(WAKE)]);
    const line = sent[history.filter((one) => one !== WAKE && one !== GONE).length + 1];
    if (!line && !isAsleep) return;
    const does = line ? `sends ${line.line} while it` : "waits by a clock while it";
    throw Object.assign(new Error(`agent ${role} ${does} is on a link: no clock tells how long a link takes`), { place: line && line.place });
  }
}
const keyOfHistory = (role, history) => `${role} ${history.join("\n")}`;

// what is found of every schedule of a match with one black hole
async function explore(task, programs) {
  const host = new Host(programs);
  let unread = "", errors = "", answers = new Uint8Array(0);
  const take = (room) => { const bytes = answers.slice(0, room); answers = answers.slice(bytes.length); return bytes; };
  const arena = new Arena(task.module, {
    read: (room) => answers.length ? take(room) : (async () => {
      const lines = unread.split("\n");
      unread = lines.pop();
      for (const line of lines) answers = encoded(decoded(answers) + await host.answer(line));
      return take(room);
    })(),
    write: (stream, bytes) => { if (stream === 1) unread += decoded(bytes); else errors += decoded(bytes); },
  });
  for (const [name, content] of Object.entries(task.files)) arena.put(name, content);
  const words = ["explore", "tournament.toml", "0", "--max-states", String(task.states), "--spurious-wakeups", "2"];
  const status = await arena.runAsync(words);
  const lines = unread.split("\n").filter((line) => line).map((line) => JSON.parse(line));
  return { status, errors, finding: lines[0] || null, counts: lines[1] || null, asked: host.asked };
}
