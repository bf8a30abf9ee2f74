// Editing, where tools/serve plays the script at once: /play answers with the document, faulty lines and all.
const PAUSE = 120, MOST_FINDINGS_SHOWN = 50;
const editor = {
  here: make("div", { class: "hererow" }),
  under: make("pre", { "aria-hidden": "true" }),
  gutter: make("div", { class: "gutter mono", "aria-hidden": "true" }),
  typed: make("textarea", {
    spellcheck: "false", autocapitalize: "off", autocomplete: "off", wrap: "off", "aria-label": "The script",
  }),
  findings: make("div", { class: "findings", role: "region", "aria-label": "Faulty lines", hidden: "" }),
  button: make("button", { id: "edit", type: "button" }, "Edit"),
  timer: 0, asked: 0, follows: true,
};
editor.sheet = make("div", { class: "sheet" }, editor.here, editor.under, editor.gutter, editor.typed);
editor.box = make("div", { class: "editor", hidden: "" }, editor.sheet);

// A line with a mark at the word that its first finding names.
function markedLine(line, finding) {
  if (!finding) return [line + "\n"];
  const from = Math.min(finding.column - 1, line.length);
  const to = Math.max(from + 1, Math.min(from + finding.length, line.length));
  const mark = make("mark", { class: finding.kind }, line.slice(from, to) || " ");
  return [line.slice(0, from), mark, line.slice(to) + "\n"];
}

function findingButton(finding, lines) {
  const text = `${finding.line}:${finding.column} ${finding.kind}: ${finding.message}`;
  const button = make("button", { type: "button", class: finding.kind === "error" ? "bad" : "" }, text);
  button.onclick = () => {
    const before = lines.slice(0, finding.line - 1).join("\n").length + (finding.line > 1 ? 1 : 0);
    const start = before + finding.column - 1;
    editor.typed.focus();
    editor.typed.setSelectionRange(start, start + finding.length);
  };
  return button;
}

function showFindings() {
  const lines = editor.typed.value.split("\n"), first = new Map();
  for (const finding of play.findings) if (!first.has(finding.line)) first.set(finding.line, finding);
  editor.under.replaceChildren(...lines.flatMap((line, i) => markedLine(line, first.get(i + 1))));
  editor.gutter.textContent = lines.map((_, i) => i + 1).join("\n");
  const shown = play.findings.slice(0, MOST_FINDINGS_SHOWN);
  editor.findings.replaceChildren(...shown.map(finding => findingButton(finding, lines)));
  editor.findings.hidden = !play.findings.length;
}

// To the place of the play after the line in which the caret stands.
function followCaret() {
  let line = editor.typed.value.slice(0, editor.typed.selectionStart).split("\n").length;
  while (line > 0 && lastOf[line] === undefined) line--;
  editor.follows = false;
  go(line > 0 ? lastOf[line] : 0);
  editor.follows = true;
}

async function playAgain() {
  const mine = ++editor.asked, headers = { "content-type": "text/plain" };
  try {
    const answer = await fetch("/play", { method: "POST", headers, body: editor.typed.value });
    if (!answer.ok) throw new Error(await answer.text());
    const told = await answer.json();
    if (mine !== editor.asked) return;
    plays[0] = told.plays[0];
    place = 0;
    openPlay(plays[0]);
    showFindings();
    followCaret();
    $("app").dataset.plays = mine;
  } catch (fault) {
    $("because").textContent = "not played: " + fault.message;
  }
}

function toggleEditor() {
  const edits = editor.box.hidden;
  editor.box.hidden = !edits;
  $("script-scroll").hidden = edits;
  editor.button.textContent = edits ? "Done" : "Edit";
  editor.findings.hidden = !edits || !play.findings.length;
  if (edits) {
    editor.typed.value = play.script.join("\n");
    showFindings();
    editor.typed.focus();
    editor.typed.setSelectionRange(0, 0);
  }
  show();
}

// Marks the line of the place, and brings it into sight unless the caret led there.
function showEditor() {
  if (editor.box.hidden) return;
  const style = getComputedStyle(editor.typed), high = parseFloat(style.lineHeight);
  const top = (rows[place].line - 1) * high;
  editor.here.style.top = parseFloat(style.paddingTop) + top + "px";
  editor.here.style.height = high + "px";
  editor.here.hidden = !rows[place].line;
  const isSeen = top >= editor.box.scrollTop && top <= editor.box.scrollTop + editor.box.clientHeight - 40;
  if (editor.follows && !isSeen) editor.box.scrollTop = top - editor.box.clientHeight / 2;
}

function listenToEditor() {
  $("script-head").after(editor.button);
  $("script-scroll").after(editor.box, editor.findings);
  editor.button.onclick = toggleEditor;
  editor.typed.addEventListener("input", () => {
    clearTimeout(editor.timer);
    editor.under.textContent = editor.typed.value;
    editor.timer = setTimeout(playAgain, PAUSE);
  });
  editor.typed.addEventListener("keydown", event => {
    if (event.key !== "Escape") return;
    toggleEditor();
    editor.button.focus();
  });
  document.addEventListener("selectionchange", () => {
    if (document.activeElement === editor.typed) followCaret();
  });
  addEventListener("beforeunload", event => {
    if (!editor.box.hidden && editor.typed.value !== play.script.join("\n")) event.preventDefault();
  });
  show.after.push(showEditor);
}
listenToEditor();
