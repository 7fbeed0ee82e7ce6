#!/usr/bin/env node
// Runs the script of a page of `rr draw --html` without a browser, and prints what it finds as JSON, for hostile/pages.py.
//
//     hostile/page_tables.mjs PAGE < QUESTIONS
//
// QUESTIONS has the lines to choose, the searches, and the shares of the picture's height to scroll to. The page's elements only keep what
// they are given. The picture has room enough, so it is laid out as `rr draw` has it.
import { readFileSync } from "node:fs";

const nothing = () => undefined;
const brush = new Proxy({}, { get: () => nothing, set: () => true });

class Element {
  constructor(textContent = "") {
    Object.assign(this, { textContent, innerHTML: "", value: "", style: {}, dataset: {}, inside: [], scrollTop: 0, clientWidth: 9000, clientHeight: 300 });
    this.classList = { toggle: nothing };
    for (const name of ["setAttribute", "addEventListener", "prepend", "remove", "focus", "querySelector", "contains"]) this[name] = nothing;
  }
  append(...inside) { this.inside.push(...inside); }
  replaceChildren(...inside) { this.inside = inside; }
  querySelectorAll() { return []; }
  getContext() { return brush; }
}

const page = readFileSync(process.argv[2], "latin1");
const between = (front, back) => page.slice(page.indexOf(front) + front.length, page.indexOf(back, page.indexOf(front)));
const elements = new Map([...page.matchAll(/ id="(\w+)"/g)].map(([, id]) => [id, new Element()]));
elements.set("data", new Element(between('<script id="data" type="application/json">', "</script>")));
elements.set("source", new Element(between('<noscript id="source">', "</noscript>")));
elements.get("field").value = "any";
const document = {
  getElementById: (id) => elements.get(id) ?? null,
  createElement: () => new Element(),
  createElementNS: () => new Element(),
  querySelector: () => new Element(),
  addEventListener: nothing,
  head: new Element(),
  body: new Element(),
};
const world = {
  document,
  window: document,
  location: { hash: "" },
  history: { replaceState: nothing },
  getComputedStyle: () => ({ getPropertyValue: () => "", color: "" }),
  Option: Element,
  ResizeObserver: class { observe() {} },
};
const script = page.slice(page.lastIndexOf("<script>") + "<script>".length, page.lastIndexOf("</script>"));
const given = "at, table, total, nodes, decisions, causes, effects, sizes, is_past, is_future, place_of, choose, filter, clear, go, draw_window";
const opened = new Function(...Object.keys(world), `${script}\nreturn { ${given}, now: () => ({ chosen, matches, drawn, layout, height }) };`)(...Object.values(world));

const line_of = (index) => opened.table.line[index];
const all = [...Array(opened.total).keys()];
const questions = JSON.parse(readFileSync(0, "utf8"));

function chosen(line) {
  const index = opened.place_of(line);
  opened.choose(index);
  const marked = (holds) => all.filter((other) => holds(other, index)).map(line_of);
  return { causes: opened.causes(index).map(line_of), effects: opened.effects(index).map(line_of), past: marked(opened.is_past), future: marked(opened.is_future), sizes: opened.sizes(index) };
}

function found(search) {
  opened.clear();
  for (const [id, value] of Object.entries({ field: "any", ...search })) opened.at(id).value = value;
  opened.filter();
  return opened.now().matches.map(line_of);
}

function drawn(share) {
  const { layout, height } = opened.now();
  opened.at("picture").scrollTop = share * height * layout.unit;
  opened.draw_window();
  return { ...opened.now().drawn, markup: opened.at("scene").innerHTML };
}

process.stdout.write(JSON.stringify({
  lines: all.map(line_of),
  nodes: opened.nodes,
  decisions: [...opened.decisions].map(([instance, index]) => [instance, line_of(index)]),
  chosen: questions.choose.map(chosen),
  found: questions.search.map(found),
  drawn: questions.scroll.map(drawn),
}));
