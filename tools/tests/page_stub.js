"use strict";
// Runs the page's script over the few parts of a browser that it uses, and then the steps of a test. Each
// step is a list: what to do, and its words. What is seen after it is printed as a line of JSON.
//
//     node page_stub.js PAGE.JS DATA.JSON STEPS.JSON [HASH]

const fs = require("fs");
const vm = require("vm");

class Item {
  constructor(tag) {
    this.tag = tag;
    this.children = [];
    this.values = {};
    this.heard = {};
    this.style = {};
    this.dataset = {};
    this.own = "";
    this.className = "";
    this.hidden = false;
    this.scrollTop = 0;
    this.clientHeight = 480;
    this.clientWidth = 400;
    this.scrollWidth = 100;
  }

  append(...items) { this.children.push(...items); }
  replaceChildren(...items) { this.children = items; }
  setAttribute(name, value) { this.values[name] = String(value); }
  addEventListener(name, act) { this.heard[name] = act; }
  set textContent(text) { this.own = String(text); this.children = []; }
  get textContent() {
    return this.own + this.children.map((one) => typeof one === "string" ? one : one.textContent).join("");
  }
  set href(text) { this.values.href = text; }
  get items() { return this.children.filter((one) => one instanceof Item); }
  all() { return [this, ...this.items.flatMap((one) => one.all())]; }
  tell(name, more) {
    const event = { target: this, preventDefault() {}, stopPropagation() {}, ...more };
    this.heard[name](event);
  }
}

const [script, data, steps, hash] = process.argv.slice(2);
const byId = new Map();
const at = (id) => {
  if (!byId.has(id)) byId.set(id, new Item(id));
  return byId.get(id);
};
at("data").own = fs.readFileSync(data, "utf8");
const heard = {};
const place = { hash: hash || "" };
const box = {
  document: {
    getElementById: at, documentElement: new Item("html"), createElement: (tag) => new Item(tag),
    createElementNS: (_, tag) => new Item(tag),
  },
  window: { addEventListener: (name, act) => { heard[name] = act; } },
  history: { replaceState: (_, __, address) => { place.hash = address; } },
  location: place, ResizeObserver: class { observe() {} }, matchMedia: () => ({ matches: false }),
  URLSearchParams, console,
};
vm.createContext(box);
vm.runInContext(fs.readFileSync(script, "utf8"), box);

const seen = () => ({
  details: at("details").textContent, tree: at("tree").textContent, found: at("found").textContent,
  wrong: at("wrong").textContent, now: at("slider").value, hash: place.hash,
  links: at("details").all().filter((one) => one.values.href || one.values.role === "link").length,
  refused: at("details").all().filter((one) => one.values.class === "edge refused").length,
  given: at("details").all().filter((one) => one.values.class === "edge").length,
});
const acts = {
  go: (address) => { place.hash = address; heard.hashchange(); },
  search: (text) => { at("search").value = text; at("search").tell("input"); },
  move: (number) => { at("slider").value = number; at("slider").tell("input"); },
  type: (number) => { at("number").value = number; at("number").tell("change"); },
  look: () => {},
};
for (const [act, word] of JSON.parse(fs.readFileSync(steps, "utf8"))) {
  acts[act](word);
  process.stdout.write(JSON.stringify(seen()) + "\n");
}
