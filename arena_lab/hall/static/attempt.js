// An attempt that goes on: what its agents were told, again and again. Texts are put in as texts alone.
"use strict";
const head = document.getElementById("state"), EVERY = 2000;

function made(kind, text, name) {
  const found = document.createElement(kind);
  if (text !== undefined) found.textContent = text;
  if (name) found.className = name;
  return found;
}
function words(line) {
  const said = [line.do, line.port, line.put].filter((it) => it !== undefined).map(String).join(" ");
  return `${line.do === "deliver" ? "" : said} → ${JSON.stringify(line.reply)}`;
}
function agent(told, names) {
  const box = made("details");
  box.open = true;
  box.append(made("summary", `${names.agent} ${told.agent}: ${told.commands} ${names.commands}`));
  const list = made("ul", undefined, "lines");
  list.append(...told.lines.map((line) => { const one = made("li"); one.append(made("code", words(line))); return one; }));
  box.append(list);
  return box;
}
async function look() {
  const answer = await fetch(`/api/matches/${head.dataset.attempt}`, { credentials: "same-origin" });
  if (!answer.ok) return answer.status === 429;
  const told = await answer.json(), shown = document.querySelectorAll("section.match").length;
  const pages = told.matches.filter((match) => match.page).length;
  if (told.state !== head.dataset.state || told.matches.length !== shown || pages !== Number(head.dataset.pages)) {
    location.reload();
    return false;
  }
  for (const match of told.matches) {
    const place = document.querySelector(`section[data-match="${match.number}"] .agents`);
    if (place && match.agents) place.replaceChildren(...match.agents.map((it) => agent(it, place.dataset)));
  }
  return true;
}
async function again() {
  let goesOn = true;
  try { goesOn = await look(); } catch { /* the hall does not answer; ask again */ }
  if (goesOn) setTimeout(again, EVERY);
}
again();
