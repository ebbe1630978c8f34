// The files of a program in an editor, with what is wrong at a line, and which lines sent. Texts are put in as texts alone.
"use strict";
const MODES = {
  py: "python", js: "javascript", json: "application/json", c: "text/x-csrc", h: "text/x-csrc", cpp: "text/x-c++src",
  hpp: "text/x-c++src",
};

class Editor {
  constructor(place, main, keys, label) {
    this.main = main;
    this.current = main;
    this.docs = {};
    this.marks = [];
    this.sent = [];
    this.mirror = CodeMirror(place, {
      lineNumbers: true, indentUnit: 4, matchBrackets: true, lineWrapping: true, viewportMargin: 50, inputStyle: "contenteditable",
      extraKeys: { ...keys, Tab: (it) => it.execCommand(it.somethingSelected() ? "indentMore" : "insertSoftTab") },
    });
    this.mirror.getInputField().setAttribute("aria-label", label);
  }

  files() { return Object.fromEntries(Object.entries(this.docs).map(([name, doc]) => [name, doc.getValue()])); }

  take(files) {
    this.clear();
    this.docs = Object.fromEntries(Object.entries(files).map(([name, text]) =>
      [name, CodeMirror.Doc(text, MODES[name.split(".").pop()] || null)]));
    if (!this.docs[this.current]) this.current = this.docs[this.main] ? this.main : Object.keys(this.docs)[0];
    document.getElementById("tabs").replaceChildren(...Object.keys(this.docs).map((name) => {
      const tab = button(name, () => { this.open(name); this.mirror.focus(); });
      tab.setAttribute("role", "tab");
      return tab;
    }));
    this.open(this.current);
  }

  open(name) {
    this.current = name;
    this.mirror.swapDoc(this.docs[name]);
    for (const tab of document.getElementById("tabs").children) tab.setAttribute("aria-selected", String(tab.textContent === name));
  }

  clear() {
    for (const [doc, widget, line] of this.marks) {
      widget.clear();
      doc.removeLineClass(line, "background", "wrong-line");
    }
    this.marks = [];
    this.shade([]);
  }

  // what is wrong stands under its line, and perhaps leads to something
  mark(it, more) {
    const doc = this.docs[it.file], line = it.line - 1;
    if (!doc || !doc.getLineHandle(line)) return;
    const box = document.createElement("div");
    box.className = "wrong";
    box.setAttribute("role", "note");
    box.textContent = it.said;
    if (more) box.append(" ", more);
    const widget = doc.addLineWidget(line, box, { noHScroll: true });
    this.marks.push([doc, widget, doc.addLineClass(line, "background", "wrong-line")]);
  }

  go(it) {
    if (!this.docs[it.file]) return;
    this.open(it.file);
    this.mirror.setCursor(it.line - 1, 0);
    this.mirror.scrollIntoView({ line: it.line - 1, ch: 0 }, 120);
  }

  // the lines by which agents sent last: pairs of a place and the name of a class
  shade(now) {
    for (const [doc, line, name] of this.sent) doc.removeLineClass(line, "background", name);
    this.sent = now.filter(([it]) => this.docs[it.file]).map(([it, name]) =>
      [this.docs[it.file], this.docs[it.file].addLineClass(it.line - 1, "background", name), name]);
  }
}

function button(text, does) {
  const made = document.createElement("button");
  made.type = "button";
  made.textContent = text;
  made.addEventListener("click", does);
  return made;
}
