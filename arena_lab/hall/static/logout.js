// Before somebody logs out or in, what this browser has of a team's drafts goes to the hall, and leaves the browser.
"use strict";
const leaves = document.querySelector("form.who"), begin = `draft ${leaves.dataset.writer} `;
const keptDrafts = () => Object.keys(localStorage).filter((key) => key.startsWith("draft "));
// who wrote here before and did not log out is somebody else
for (const key of keptDrafts()) if (!key.startsWith(begin)) localStorage.removeItem(key);
for (const form of document.querySelectorAll("form.who, form.login, form.begins")) form.addEventListener("submit", async (event) => {
  const kept = keptDrafts();
  if (!kept.length) return;
  event.preventDefault();
  for (const key of kept) {
    const language = key.slice(begin.length);
    const headers = { "Content-Type": "application/json", "X-CSRFToken": form.elements.csrfmiddlewaretoken.value, "X-Writer": leaves.dataset.writer };
    const answer = await fetch(`/api/drafts/${language}`, { method: "PUT", headers, body: localStorage.getItem(key) }).catch(() => ({ ok: false }));
    if (!answer.ok && !confirm(`${language}: ${leaves.dataset.lost}`)) return;
    localStorage.removeItem(key);
  }
  form.submit();
});
