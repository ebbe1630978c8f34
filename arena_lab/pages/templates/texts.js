// Texts of strangers: what does not show, or changes how the rest shows, is written as its number.
const EXCERPT = 22;
const HIDDEN = new RegExp("[" +
  "\\u0000-\\u001f\\u007f-\\u009f\\u00ad\\u061c\\u115f\\u1160\\u180e\\u200b-\\u200f\\u2028-\\u202e" +
  "\\u2060-\\u206f\\u3164\\ufe00-\\ufe0f\\ufeff\\ufff9-\\uffff\\u{e0000}-\\u{e0fff}]", "gu");
const shown = (text) => text.replace(HIDDEN, (one) => "\\u{" + one.codePointAt(0).toString(16) + "}");
function put(element, text) {
  element.replaceChildren();
  let end = 0;
  for (const found of text.matchAll(HIDDEN)) {
    element.append(text.slice(end, found.index));
    const mark = document.createElement("span");
    mark.className = "escape";
    mark.textContent = shown(found[0]);
    element.append(mark);
    end = found.index + found[0].length;
  }
  element.append(text.slice(end));
}
const excerpt = (text, room = EXCERPT) => {
  const all = Array.from(shown(text));
  return all.length > room ? all.slice(0, room - 1).join("") + "\u2026" : all.join("");
};
