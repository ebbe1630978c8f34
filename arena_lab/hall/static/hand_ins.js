// Hand-ins that are not graded yet: the page is loaded again until they are.
"use strict";
if (document.querySelector('tr[data-state="waiting"], tr[data-state="held"], tr[data-state="running"]')) {
  setTimeout(() => location.replace("/hand-ins"), 4000);
}
