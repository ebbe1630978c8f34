"use strict";
// waits for the match that it shows
addEventListener("message", function first({ source, data: told }) {
  if (source !== window.parent || !told.shown) return;
  removeEventListener("message", first);
  begin(told.shown, told.at);
});
function begin(given, at) {
/* the page of a match */
  if (at) go(at); else if (at === null) play();
}
