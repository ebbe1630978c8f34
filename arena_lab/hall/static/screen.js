// Standings on a projector: they scroll to their end by themselves, and then are asked for anew.
"use strict";
const STEP = 1, EVERY = 40, REST = 6000;

async function renew() {
  try {
    const answer = await fetch(location.href, { credentials: "same-origin" });
    const page = new DOMParser().parseFromString(await answer.text(), "text/html"), found = page.getElementById("screen");
    if (found) document.getElementById("screen").replaceChildren(...found.childNodes);
  } catch { /* the hall does not answer; ask again later */ }
  window.scrollTo(0, 0);
  setTimeout(scroll, REST);
}
function scroll() {
  const end = document.documentElement.scrollHeight - window.innerHeight;
  if (window.scrollY >= end - 1) setTimeout(renew, REST);
  else {
    window.scrollBy(0, STEP);
    setTimeout(scroll, EVERY);
  }
}
setTimeout(scroll, REST);
