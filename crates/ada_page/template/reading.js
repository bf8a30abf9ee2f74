"use strict";
// Shows plays, event by event. All that it shows of tasks stands in the document: this script knows no rule of Ada.
// Where a value holds from a row on until it is told anew, `at` looks it up.
const $ = id => document.getElementById(id);
const WORDS = {
  "not started": "not started",
  "activating": "activating",
  "running": "runs",
  "starting": "waits for an activation",
  "calling": "waits in a call",
  "in rendezvous": "is served",
  "waiting": "waits for a call",
  "delayed": "is delayed",
  "leaving": "waits at the end of a block",
  "abnormal": "aborted",
  "completed": "completed",
  "terminated": "terminated",
};
let play, rows, tasks, tracks, spans, brackets, lineRow, lastOf, rowOf, place = 0, picked = null;

// An element of HTML; parts that are nothing are left out.
function make(name, attributes = {}, ...parts) {
  const it = document.createElement(name);
  for (const [key, value] of Object.entries(attributes)) {
    if (key === "class") it.className = value;
    else if (value !== null) it.setAttribute(key, value);
  }
  it.append(...parts.filter(part => part !== null && part !== ""));
  return it;
}

const entryOf = (task, entry, index) => {
  const family = (tasks.get(task)?.families || []).find(f => f.entry === entry);
  return family && (family.low !== 0 || family.high !== 0) ? `${entry}(${index})` : entry;
};

// The changes of a value: the rows, and what it is from there on.
function note(key, row, value) {
  const track = tracks.get(key) || [[], []];
  track[0].push(row);
  track[1].push(value);
  tracks.set(key, track);
}

function lastAt(track, row) {
  let low = 0, high = track[0].length - 1;
  while (low < high) {
    const middle = (low + high + 1) >> 1;
    if (track[0][middle] <= row) low = middle;
    else high = middle - 1;
  }
  return low;
}

function at(key, row) {
  const track = tracks.get(key);
  return track && track[0][0] <= row ? track[1][lastAt(track, row)] : undefined;
}

// Blocks stand in the picture as brackets, from the row of their opening to that where they are left.
function noteBlocks(row, i, open) {
  if (row.kind === "opened") {
    const bracket = { block: row.block, by: row.by, under: row.under, from: i, to: Infinity };
    brackets.push(bracket);
    open.set(row.block, bracket);
  }
  const leave = bracket => {
    bracket.to = i;
    open.delete(bracket.block);
  };
  if (row.kind === "left" && open.has(row.block)) leave(open.get(row.block));
  if (!row.nests) return;
  for (const bracket of open.values()) {
    if (!(row.nests[bracket.by] || []).some(m => m.block === bracket.block)) leave(bracket);
  }
}

function noteStages(row, i) {
  for (const [task, stage] of Object.entries(row.stages || {})) {
    note("stage " + task, i, stage);
    const of = spans.get(task) || [];
    if (of.length) of[of.length - 1].to = i;
    of.push({ from: i, to: Infinity, stage });
    spans.set(task, of);
  }
}

function noteRow(row, i, open) {
  if (lineRow[row.line] === undefined) lineRow[row.line] = i;
  lastOf[row.line] = i;
  if (row.position) rowOf[row.position] = i;
  if (row.kind === "created") {
    tasks.set(row.task, { name: row.task, row: i, families: row.families, under: row.under });
  }
  if (row.kind === "ticked") note("moment", i, row.moment);
  noteBlocks(row, i, open);
  noteStages(row, i);
  for (const [task, why] of Object.entries(row.whys || {})) note("why " + task, i, why);
  for (const key of ["queues", "nests", "circles", "verdict"]) {
    if (row[key] !== undefined) note(key, i, row[key]);
  }
}

function load(played) {
  play = played;
  rows = play.rows;
  tasks = new Map([["main", { name: "main", row: 0, families: [], under: null }]]);
  tracks = new Map();
  spans = new Map();
  brackets = [];
  lineRow = [];
  lastOf = [];
  rowOf = [];
  const open = new Map();
  rows.forEach((row, i) => noteRow(row, i, open));
}

// Whether a row is the last one of its line: only there reasons are told.
const isSettled = row => lastOf[rows[row].line] === row;
