"use strict";
// The page's script. Its data are a line with the number of nodes and those that `rr sim --explain --json` prints of the events that are
// on the page, with the instances that they decide. The picture is the one that `rr draw` prints.
// Both stay text. They are walked once, and tables of numbers then say where what stands in them, what depends on what, and what is in
// sight. An object is parsed where its event is chosen or listed, so a long run leaves few values behind, and a click waits for none.
const at = (id) => document.getElementById(id);

// Both stand in elements whose text a browser takes as it is, since that opens fastest.
const data = at("data").textContent;
const source = at("source").textContent;
const FIELDS = ["words", "node", "kind", "instance"];

// The first place in ascending numbers that has this number or a greater one.
function first_from(numbers, least) {
  let [low, high] = [0, numbers.length];
  while (low < high) {
    const middle = (low + high) >> 1;
    if (numbers[middle] < least) low = middle + 1;
    else high = middle;
  }
  return low;
}

// Of each event: where its object begins and ends in the data, and where in it the event is told; its line, its node, and its kind by
// its place in `kinds`; and the number of the message that it sends or hears, or -1.
const table = { begin: [], end: [], told: [], line: [], node: [], kind: [], sent: [], heard: [] };
const kinds = [];
// The objects that aren't of an event: the run's, and those of the decided commands.
const others = [];

// The words of data are spelled with backslashes before their quotes, so this stands in none of them.
const TOLD = /"event":(\{"line":(\d+),"text":"(\w+) (\d+)(?: (\d+))?)/g;
const SENDS = '{"kind":"send","number":';
const DONE = '{"kind":"done",';

function kind_of(word) {
  const place = kinds.indexOf(word);
  return place >= 0 ? place : kinds.push(word) - 1;
}

function add_event(found, begin, end) {
  const [whole, told, line, kind, node, message] = found;
  table.begin.push(begin);
  table.end.push(end);
  table.told.push(found.index + whole.length - told.length);
  table.line.push(Number(line));
  table.node.push(Number(node));
  table.kind.push(kind_of(kind));
  table.sent.push(data.startsWith(SENDS, begin) ? Number.parseInt(data.slice(begin + SENDS.length, begin + SENDS.length + 12), 10) : -1);
  table.heard.push(kind === "hear" && data.startsWith(DONE, begin) ? Number(message) : -1);
}

function read_data() {
  let start = 0;
  const add_others = (end) => {
    for (const line of data.slice(start, end).split("\n")) if (line.startsWith("{")) others.push(JSON.parse(line));
  };
  for (let found = TOLD.exec(data); found; found = TOLD.exec(data)) {
    const begin = data.lastIndexOf("\n", found.index) + 1;
    const end = data.indexOf("\n", found.index);
    if (begin > start) add_others(begin);
    add_event(found, begin, end);
    start = end + 1;
  }
  add_others(data.length);
  for (const [name, column] of Object.entries(table)) table[name] = new Int32Array(column);
}

read_data();
const total = table.line.length;
const { nodes } = others[0];

// What the data have of an event: all of it, or its line, text and note alone.
const object_of = (index) => JSON.parse(data.slice(table.begin[index], table.end[index]));
const told_of = (index) => JSON.parse(data.slice(table.told[index], table.end[index] - 1));

// The event on a line, if the page has it.
function place_of(line) {
  const index = first_from(table.line, line);
  return table.line[index] === line ? index : undefined;
}

// The picture's beginning, and the places of the nodes' lines from the left.
const body = source.indexOf('<path class="z"');
const front = source.slice(0, body);
const origins = [...source.slice(0, body + 4000).matchAll(/<text class="h" x="(\d+)"/g)].map((found) => Number(found[1]));
let [, full_width, height] = /viewBox="0 0 (\d+) (\d+)"/.exec(front).map(Number);

// What an event stands on directly: the event before it at its node and, of a message that is heard, where that was sent. The first
// event that hears what an event sends, and the one that hears it again behind that. An event's place among its node's.
let [previous, following, sending, first_hearing, next_hearing, rank] = [0, 1, 2, 3, 4, 5].map(() => new Int32Array(total).fill(-1));
const counts = new Int32Array(nodes);

function find_causes() {
  const sends = new Map();
  const last = new Int32Array(nodes).fill(-1);
  for (let index = 0; index < total; index += 1) {
    const node = table.node[index];
    previous[index] = last[node];
    if (last[node] >= 0) following[last[node]] = index;
    last[node] = index;
    rank[index] = counts[node]++;
    if (table.sent[index] >= 0) sends.set(table.sent[index], index);
    if (table.heard[index] >= 0) sending[index] = sends.get(table.heard[index]) ?? -1;
  }
  for (let index = total - 1; index >= 0; index -= 1) {
    const sent = sending[index];
    if (sent >= 0) [next_hearing[index], first_hearing[sent]] = [first_hearing[sent], index];
  }
}

find_causes();

// Both are in order, and an event that stands on another in both ways is named once.
const in_order = (indexes) => [...new Set(indexes)].filter((index) => index >= 0).sort((one, other) => one - other);
const causes = (index) => in_order([previous[index], sending[index]]);

function effects(index) {
  const found = [following[index]];
  for (let hearing = first_hearing[index]; hearing >= 0; hearing = next_hearing[hearing]) found.push(hearing);
  return in_order(found);
}

// What an event depends on is, of each node, its first events: `before` has how many. What depends on it is each node's events
// from one on: `after` has its rank.
let [before, after] = [0, 1].map(() => new Int32Array(total * nodes));

// An event depends on its cause, and on what that depends on.
function join_before(index, cause) {
  if (cause < 0) return;
  const [to, from] = [index * nodes, cause * nodes];
  for (let node = 0; node < nodes; node += 1) if (before[from + node] > before[to + node]) before[to + node] = before[from + node];
  const own = to + table.node[cause];
  if (rank[cause] >= before[own]) before[own] = rank[cause] + 1;
}

function join_after(cause, index) {
  if (cause < 0) return;
  const [to, from] = [cause * nodes, index * nodes];
  for (let node = 0; node < nodes; node += 1) if (after[from + node] < after[to + node]) after[to + node] = after[from + node];
  const own = to + table.node[index];
  if (rank[index] < after[own]) after[own] = rank[index];
}

function find_clocks() {
  for (let index = 0; index < total; index += 1) {
    after.set(counts, index * nodes);
    join_before(index, previous[index]);
    join_before(index, sending[index]);
  }
  for (let index = total - 1; index >= 0; index -= 1) {
    join_after(previous[index], index);
    join_after(sending[index], index);
  }
}

find_clocks();
const is_past = (index, of) => rank[index] < before[of * nodes + table.node[index]];
const is_future = (index, of) => rank[index] >= after[of * nodes + table.node[index]];

function sizes(index) {
  let [past, future] = [0, 0];
  for (let node = 0; node < nodes; node += 1) {
    past += before[index * nodes + node];
    future += counts[node] - after[index * nodes + node];
  }
  return [past, future];
}

// What the events speak of: their clients, requests, names and instances, as far as their words and messages have them. One that hears a
// message speaks of what that does. It is found when somebody first searches for it.
let spoken;

function words_of(index) {
  const { event, message, ...object } = object_of(index);
  const command = message?.command;
  const words = kinds[table.kind[index]] === "submit" ? event.text.split(" ") : [];
  const client = command?.client ?? object.client ?? words[2];
  const request = client === undefined ? "" : `${client}.${command?.request ?? object.request ?? words[3]}`;
  return { client: String(client ?? ""), request, name: command?.name ?? words[5] ?? "", instance: String(message?.instance ?? "") };
}

function find_spoken() {
  spoken = { client: [], request: [], name: [], instance: [] };
  const fields = Object.entries(spoken);
  for (let index = 0; index < total; index += 1) {
    const sent = sending[index];
    const words = sent < 0 ? words_of(index) : undefined;
    for (const [field, column] of fields) column.push(words ? words[field] : column[sent]);
  }
}

// The event that decided an instance, by the instance: the run says which.
const decisions = new Map([...data.matchAll(/"decides":(\d+)/g)].map((found) => [Number(found[1]), first_from(table.begin, found.index + 1) - 1]));
