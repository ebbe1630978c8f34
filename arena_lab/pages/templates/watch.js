// The standings of a contest, as the server tells them.
"use strict";
const byId = (id) => document.getElementById(id);
let told = null, skew = 0;

const minutes = (seconds) => `${Math.floor(seconds / 60)}:${String(Math.floor(seconds % 60)).padStart(2, "0")}`;
const now = () => Date.now() / 1000 + skew;

function cell(line, text, kind, link) {
  const made = document.createElement("td");
  if (link) {
    const anchor = document.createElement("a");
    anchor.href = link;
    anchor.textContent = text;
    made.append(anchor);
  } else made.textContent = text;
  if (kind) made.className = kind;
  line.append(made);
}
// the last turn that the server wrote
function turn(row) {
  if (row.turn === undefined) return "";
  return `, turn ${row.turn}${told.turns ? ` of ${told.turns}` : ""}`;
}
function words(row) {
  if (row.state === "is over") return row.outcome;
  if (row.state === "runs") return `runs for ${minutes(Math.max(0, now() - row.since))}${turn(row)}`;
  return row.agents ? `${row.state}: ${row.entered} of ${row.agents} entered` : row.state;
}
// one row a team; where each team has one match, its row says the same
function showTeams() {
  const { rows, networks } = told.teams;
  byId("standings").hidden = rows.length < 2 || rows.length === told.rows.length;
  const traps = rows.some((row) => row.traps > 0) ? ["deceived"] : [];
  byId("networks").replaceChildren(...["", "team", "solved", ...networks, ...traps, "moves", "lost"].map((name) => {
    const made = document.createElement("th");
    made.textContent = name;
    return made;
  }));
  byId("teams").replaceChildren(...rows.map((row) => {
    const line = document.createElement("tr");
    cell(line, row.is_absent ? "absent" : row.place);
    cell(line, row.team);
    cell(line, row.solved, "solved");
    for (const done of row.networks) cell(line, done ? `${done[0]} of ${done[1]}` : "");
    if (traps.length) cell(line, `${row.deceived} of ${row.traps}`);
    cell(line, row.moves);
    cell(line, row.lost);
    return line;
  }));
}
// the line above the matches on a network, where there are several
function heading(name) {
  const line = document.createElement("tr"), made = document.createElement("th");
  made.colSpan = 7;
  made.textContent = name;
  line.append(made);
  return line;
}
function show() {
  if (!told) return;
  showTeams();
  byId("rows").replaceChildren(...told.rows.flatMap((row, place) => {
    const line = document.createElement("tr"), isOver = row.state === "is over";
    const isNew = told.teams.networks.length > 1 && (!place || told.rows[place - 1].network !== row.network);
    cell(line, row.match);
    const link = (row.page || told.open) && row.state !== "has not begun" ? `/match/${row.match}` : null;
    cell(line, row.team);
    cell(line, row.network);
    cell(line, words(row), isOver ? (row.outcome === "solved" ? "solved" : "failed") : "runs", link);
    cell(line, row.agents ? `${row.entered} of ${row.agents}` : "");
    cell(line, isOver ? row.moves : "");
    cell(line, isOver ? row.lost : "");
    return isNew ? [heading(row.network), line] : [line];
  }));
  const over = told.rows.filter((row) => row.state === "is over").length;
  byId("about").textContent = `${over} of ${told.rows.length} matches are over`;
  byId("note").textContent = told.open ? "Pages of matches show the black holes while they go on."
    : over === told.rows.length ? "Each outcome leads to the page of its match."
    : "Pages of matches come when all are over.";
}
const events = new EventSource("/standings");
events.onmessage = (event) => { told = JSON.parse(event.data); skew = told.now - Date.now() / 1000; show(); };
events.onerror = () => { byId("about").textContent = "The lab does not answer; trying again"; };
setInterval(show, 1000);
