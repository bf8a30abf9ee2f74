// A card for each task, why it waits, and who depends on whom.
const MOST_CALLERS = 12, MOST_AWAITED = 6, MOST_SENTENCES = 40;
const classOf = stage => "--stage:var(--" + stage.replace(/ /g, "-") + ")";

function acting(row) {
  const names = new Set([row.by, row.task, row.caller, ...Object.keys(row.stages || {})]);
  names.delete(undefined);
  return names;
}

function goButton(text, action) {
  const button = make("button", { type: "button", class: "go" }, text);
  button.onclick = action;
  return button;
}

function nestText(task, nest) {
  const part = m => m.block ? `in block ${m.block}` : `serves ${m.caller} (${entryOf(task.name, m.entry, m.index)})`;
  return nest.map(part).join(" › ");
}

// Who waits at each entry of a task, by the entry's name, and which entries it waits for.
function entriesOf(task, why, queues) {
  const wait = why && why.reason === "waiting" ? rows[rowOf[why.since]] : null;
  const open = (wait?.accepts || []).filter(a => a.open).map(a => entryOf(task.name, a.entry, a.index));
  const shown = new Map();
  for (const family of task.families) {
    if (family.low === 0 && family.high === 0) shown.set(family.entry, []);
  }
  for (const q of queues) {
    if (q.task === task.name) shown.set(entryOf(task.name, q.entry, q.index), q.callers);
  }
  for (const name of open) if (!shown.has(name)) shown.set(name, []);
  return [shown, new Set(open)];
}

function entryLine(name, callers, isOpen) {
  const line = make("div", { class: "entry" + (isOpen ? " open" : "") }, make("b", {}, name));
  line.append(isOpen ? " open" : "", callers.length ? " ← " : "");
  for (const caller of callers.slice(0, MOST_CALLERS)) line.append(make("span", { class: "chip" }, caller));
  const left = callers.length - MOST_CALLERS;
  if (left > 0) line.append(make("span", { class: "chip" }, `and ${left} more`));
  return line;
}

function awaitedLine(awaits) {
  const text = awaits.length > MOST_AWAITED ? awaits.length + " tasks" : awaits.join(", ");
  return make("div", { class: "in faint" }, "waits for " + text);
}

function cardOf(task, now) {
  const stage = at("stage " + task.name, place), why = at("why " + task.name, place);
  const nest = now.nests[task.name] || [];
  const card = make("li", { class: "card", style: classOf(stage) });
  card.classList.toggle("acts", now.acts.has(task.name));
  card.classList.toggle("picked", task.name === picked);
  card.classList.toggle("gone", stage === "terminated");
  card.classList.toggle("circle", now.circles.has(task.name));
  const pressed = String(task.name === picked);
  const button = make("button", { type: "button", "aria-pressed": pressed, id: "card-" + task.name }, task.name);
  card.append(button, make("span", { class: "stage" }, WORDS[stage] || stage));
  card.onclick = () => pick(picked === task.name ? null : task.name);
  if (nest.length) card.append(make("div", { class: "in" }, nestText(task, nest)));
  const [shown, open] = entriesOf(task, why, now.queues);
  for (const [name, callers] of shown) card.append(entryLine(name, callers, open.has(name)));
  const isCall = why && (why.reason === "queued" || why.reason === "in rendezvous");
  if (why && why.awaits && !isCall) card.append(awaitedLine(why.awaits));
  if (why && why.served) card.append(make("div", { class: "in faint" }, "last served " + why.served));
  return card;
}

function showCards() {
  const now = {
    acts: acting(rows[place]),
    queues: at("queues", place) || [],
    nests: at("nests", place) || {},
    circles: new Set((at("circles", place) || []).flat()),
  };
  const cards = [...tasks.values()].filter(task => task.row <= place).map(task => cardOf(task, now));
  const held = document.activeElement?.id?.startsWith("card-") ? document.activeElement.id : null;
  $("cards").replaceChildren(...cards);
  if (held && $(held)) $(held).focus({ preventScroll: true });
}

// What is said of a task that is picked, beside its sentence.
function pickedParts(name, task, why) {
  const under = task.under ? `${name} depends on ${task.under}.` : "It is the main program.";
  const parts = [make("p", { class: "faint" }, under)];
  const since = rowOf[why?.since];
  if (since !== undefined) parts.push(goButton(`To event ${why.since}`, () => go(since)));
  for (const other of [...(why?.awaits || []), ...(why?.served ? [why.served] : [])].slice(0, MOST_CALLERS)) {
    parts.push(goButton("Why " + other + "?", () => pick(other)));
  }
  return parts;
}

// Where the call of a task stands in its queue, if it does.
function placePart(name) {
  const queue = (at("queues", place) || []).find(q => q.callers.includes(name));
  if (!queue) return "";
  const number = queue.callers.indexOf(name) + 1;
  return make("span", { class: "place faint" }, ` Place ${number} of ${queue.callers.length} in the queue.`);
}

function whyParts(name) {
  const task = tasks.get(name);
  if (task.row > place) return [make("p", {}, `${name} isn't made yet.`)];
  const why = at("why " + name, place), parts = [];
  if (why) parts.push(make("p", {}, why.text, placePart(name)));
  else if (picked) parts.push(make("p", {}, `${name} is ${at("stage " + name, place)}.`));
  return picked ? [...parts, ...pickedParts(name, task, why)] : parts;
}

function settledParts() {
  const there = [...tasks.keys()].filter(name => tasks.get(name).row <= place).slice(0, MOST_SENTENCES);
  const parts = (picked ? [picked] : there).flatMap(whyParts);
  for (const circle of at("circles", place) || []) {
    parts.push(make("p", { class: "bad" }, "A circle: " + [...circle, circle[0]].join(" waits for ") + "."));
  }
  const verdict = at("verdict", place);
  if (verdict) parts.push(make("p", { class: "verdict" }, verdict));
  return parts;
}

function unsettledParts() {
  const to = lastOf[rows[place].line];
  return [
    make("p", {}, "More is forced by this line before any task acts."),
    goButton("On to event " + rows[to].position, () => go(to)),
  ];
}

function showWhy() {
  $("why").replaceChildren(...(isSettled(place) ? settledParts() : unsettledParts()));
  $("all").hidden = !picked;
  const isEnd = rows.length > 1 && place === rows.length - 1;
  $("verdict").textContent = isEnd ? "the end of the script" : "";
  if ($("treebox").open) showTree();
}

function showTree() {
  const under = new Map();
  const add = (master, it) => under.set(master, [...(under.get(master) || []), it]);
  for (const b of brackets) {
    if (b.from <= place && b.to > place) add(b.under, { name: b.block, text: "block " + b.block });
  }
  for (const t of tasks.values()) {
    const gone = at("stage " + t.name, place) === "terminated";
    if (t.row <= place && t.under) add(t.under, { name: t.name, text: t.name, gone });
  }
  const leaf = it => make("li", {}, make("span", { class: it.gone ? "gone" : "" }, it.text), branch(it.name));
  const branch = master => under.has(master) ? make("ul", {}, ...under.get(master).map(leaf)) : "";
  $("tree").replaceChildren(make("div", {}, "main"), branch("main"));
}
