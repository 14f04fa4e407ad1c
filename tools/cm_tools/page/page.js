"use strict";

const data = JSON.parse(document.getElementById("data").textContent);
const ROW = 24;
const MANY = 300;
// Replies that refuse something.
const BAD = new RegExp("^(failed|void|not-found|gone|shut |source-shut|no-|client-off|full|cycle|bad-offer|"
  + "offers-refused|closing|exists|not-dynamic|ended (?!resolved|started|stopped))");

const at = (id) => document.getElementById(id);
const byIncarnation = new Map(data.instances.map((one) => [one.incarnation, one]));
const entriesOf = new Map();
data.entries.forEach((entry, index) => {
  for (const incarnation of entry[3]) {
    if (!entriesOf.has(incarnation)) entriesOf.set(incarnation, []);
    entriesOf.get(incarnation).push(index + 1);
  }
});

const askingsOf = new Map();
for (const [entry, index] of data.askings) {
  const route = data.routes[index];
  for (const one of new Set([route.client, route.provider])) {
    if (one === null) continue;
    if (!askingsOf.has(one)) askingsOf.set(one, []);
    askingsOf.get(one).push({ ...route, entry });
  }
}

// What is shown: the chosen instance, what is folded, what is searched, and the moment.
const view = { chosen: null, folded: new Set(), query: "", now: data.at, only: false };

// ---- small helpers

function element(tag, className, text) {
  const made = document.createElement(tag);
  if (className) made.className = className;
  if (text !== undefined) made.textContent = text;
  return made;
}

function stateAt(instance, moment) {
  let low = 0, high = instance.changes.length;
  while (high - low > 1) {
    const middle = (low + high) >> 1;
    if (instance.changes[middle][0] <= moment) low = middle; else high = middle;
  }
  return instance.changes[low][1];
}

const isThere = (instance) => instance.born <= view.now;
const isResolved = (instance) => instance.resolved !== null && instance.resolved <= view.now;

// What the last action of an instance failed of by now.
function failureNow(instance) {
  const told = instance.failures.filter(([entry]) => entry <= view.now).pop();
  return told ? told[1] : "";
}

// The instance that has or had a moniker by a moment; one that comes later where none was there yet.
function lastOf(moniker, moment) {
  const all = data.instances.filter((one) => one.moniker === moniker);
  return all.filter((one) => one.born <= moment).pop() || all[0];
}

function dot(state) {
  return element("span", "dot s-" + state);
}

// A link that the keyboard reaches too; what it does is done here, without another page.
function anchor(text, address, act) {
  const made = element("a", "", text);
  made.href = address;
  made.addEventListener("click", (event) => {
    event.preventDefault();
    act();
  });
  return made;
}

function link(incarnation) {
  const moniker = byIncarnation.get(incarnation).moniker;
  return anchor(moniker, "#i=" + incarnation, () => choose(incarnation, true));
}

function entryLink(number) {
  return anchor("entry " + number, "#n=" + number, () => showEntry(number));
}

// A list of rows of one height, of which only those in sight are in the page.
class Rows {
  constructor(box, draw) {
    this.box = box;
    this.draw = draw;
    this.items = [];
    this.space = element("div", "space");
    box.append(this.space);
    box.addEventListener("scroll", () => this.paint());
    new ResizeObserver(() => this.paint()).observe(box);
  }

  fill(items) {
    this.items = items;
    this.space.style.height = items.length * ROW + "px";
    this.paint();
  }

  paint() {
    const first = Math.max(0, Math.floor(this.box.scrollTop / ROW) - 5);
    const last = Math.min(this.items.length, first + Math.ceil(this.box.clientHeight / ROW) + 10);
    const rows = [];
    for (let index = first; index < last; index++) {
      const row = this.draw(this.items[index]);
      row.style.top = index * ROW + "px";
      rows.push(row);
    }
    this.space.replaceChildren(...rows);
    this.widen(rows);
  }

  // Rows stand outside the flow, so the space takes the width of the widest.
  widen(rows) {
    const width = Math.max(0, ...rows.map((row) => row.scrollWidth));
    this.space.style.width = width > this.box.clientWidth ? width + "px" : "";
  }

  reveal(index) {
    const top = index * ROW, height = this.box.clientHeight;
    if (top < this.box.scrollTop || top + ROW > this.box.scrollTop + height) {
      this.box.scrollTop = Math.max(0, top - height / 2);
    }
    this.paint();
  }
}

// ---- the tree

function matches(instance) {
  const query = view.query;
  if (query.startsWith("@")) return "@" + instance.incarnation === query;
  return rooted(instance).includes(query) || capabilityOf(instance) !== "";
}

const KINDS = ["protocol", "directory", "storage"];
const declaredNames = new Map();
const lowered = new Map();

// The capabilities that an instance's declaration names, each as its section and its name.
function namesOf(instance) {
  const known = declaredNames.get(instance.incarnation);
  if (known) return known;
  const found = new Map();
  const declaration = JSON.parse(data.declarations[instance.incarnation] || "{}");
  for (const section of ["capabilities", "use", "offer", "expose"]) {
    for (const row of declaration[section] || []) {
      for (const name of [...KINDS.map((kind) => row[kind]), row.as]) {
        if (name && !found.has(name)) found.set(name, section === "capabilities" ? "has" : section);
      }
    }
  }
  declaredNames.set(instance.incarnation, found);
  return found;
}

// What of an instance's capabilities is searched, as `use NAME`; nothing before it is resolved.
function capabilityOf(instance) {
  if (view.query.length < 2 || !mayName(instance) || !isResolved(instance)) return "";
  for (const [name, section] of namesOf(instance)) {
    if (name.toLowerCase().includes(view.query)) return section + " " + name;
  }
  return "";
}

// Whether the text is somewhere in the declaration: most are read no further.
function mayName(instance) {
  const text = data.declarations[instance.incarnation];
  if (!text) return false;
  if (!lowered.has(instance.incarnation)) lowered.set(instance.incarnation, text.toLowerCase());
  return lowered.get(instance.incarnation).includes(view.query);
}

// The moniker with a slash in front, as one may also write it.
function rooted(instance) {
  return "/" + instance.moniker.toLowerCase();
}

// The instances that are searched, with all above them; null where nothing is searched.
function wanted() {
  if (!view.query) return null;
  const kept = new Set();
  let count = 0;
  for (const instance of data.instances) {
    if (!isThere(instance) || !matches(instance)) continue;
    count += 1;
    for (let one = instance; one && !kept.has(one.incarnation); one = byIncarnation.get(one.parent)) {
      kept.add(one.incarnation);
    }
  }
  kept.count = count;
  return kept;
}

function treeItems() {
  const kept = wanted();
  const items = [];
  const waiting = [[0, 0]];
  while (waiting.length) {
    const [incarnation, depth] = waiting.pop();
    const instance = byIncarnation.get(incarnation);
    if (!isThere(instance) || (kept && !kept.has(incarnation))) continue;
    const isOpen = kept !== null || !view.folded.has(incarnation);
    items.push({ instance, depth, isOpen });
    if (!isOpen) continue;
    for (let i = instance.children.length - 1; i >= 0; i--) waiting.push([instance.children[i], depth + 1]);
  }
  tellFound(kept);
  return items;
}

function tellFound(kept) {
  const there = data.instances.filter(isThere).length;
  const all = there + (there === 1 ? " instance" : " instances");
  const none = "nothing is found for “" + view.query + "”";
  at("found").textContent = !kept ? all : kept.count ? kept.count + " of " + all : none;
  at("found").className = kept && !kept.count ? "bad" : "";
}

function named(instance) {
  const shown = element("span", "name");
  // The name stands at the end of the moniker; what is found may begin before it.
  const before = instance.moniker.length + 1 - instance.name.length;
  const place = view.query === "" ? -1 : rooted(instance).lastIndexOf(view.query);
  const end = place < 0 ? 0 : place + view.query.length - before;
  if (end <= 0) {
    shown.textContent = instance.name;
    return shown;
  }
  const start = Math.max(0, place - before);
  shown.append(instance.name.slice(0, start), element("b", "", instance.name.slice(start, end)),
    instance.name.slice(end));
  return shown;
}

function drawInstance({ instance, depth, isOpen }) {
  const state = stateAt(instance, view.now);
  const row = element("div", "row" + (instance.incarnation === view.chosen ? " chosen" : ""));
  row.setAttribute("role", "treeitem");
  row.style.paddingLeft = 8 + depth * 18 + "px";
  row.title = instance.moniker + "\n" + state + ": " + data.states[state];
  const hasChildren = instance.children.some((one) => isThere(byIncarnation.get(one)));
  const fold = element("span", "fold", hasChildren ? (isOpen ? "▾" : "▸") : "");
  fold.addEventListener("click", (event) => {
    event.stopPropagation();
    toggle(instance.incarnation);
  });
  const capability = view.query && !view.query.startsWith("@") ? capabilityOf(instance) : "";
  const told = state + " · @" + instance.incarnation + (capability && " · " + capability);
  row.append(fold, dot(state), named(instance), element("span", "state", told));
  row.addEventListener("click", () => choose(instance.incarnation, false));
  return row;
}

function toggle(incarnation) {
  if (!view.folded.delete(incarnation)) view.folded.add(incarnation);
  drawTree();
}

function drawTree() {
  tree.fill(treeItems());
}

function unfoldTo(incarnation) {
  let above = byIncarnation.get(incarnation).parent;
  while (above !== null) {
    view.folded.delete(above);
    above = byIncarnation.get(above).parent;
  }
}

// ---- the details

function listed(title, items) {
  if (!items.length) return [];
  const list = element("ul");
  list.append(...items);
  return [element("h3", "", title), list];
}

function fact(list, name, ...values) {
  const value = element("dd");
  value.append(...values);
  list.append(element("dt", "", name), value);
}

function facts(instance, state) {
  const list = element("dl");
  const shown = element("span", "chip");
  shown.append(dot(state), state + ": " + data.states[state]);
  fact(list, "state", shown);
  fact(list, "incarnation", String(instance.incarnation));
  fact(list, "URL", element("code", "", isResolved(instance) ? instance.absolute : instance.url));
  if (instance.runner && isResolved(instance)) fact(list, "runner", instance.runner);
  const once = instance.once ? ", which runs each child once" : "";
  if (instance.collection) fact(list, "collection", instance.collection + once);
  if (instance.eager) fact(list, "startup", "eager");
  const failure = failureNow(instance);
  if (failure) fact(list, "failed", element("span", "bad", failure));
  return list;
}

function clientRoute(route) {
  const item = element("li");
  const source = route.provider === null ? route.source : link(route.provider);
  item.append(element("code", "", route.asked), element("span", "arrow", "→"));
  if (route.hops.length) item.append(source, " ", element("code", "quiet", route.path));
  else item.append(element("span", "bad", route.told));
  item.append(" ", entryLink(route.entry));
  route.hops.forEach((hop, depth) => {
    const line = element("div", "hop", hop);
    line.style.paddingLeft = 16 + depth * 16 + "px";
    item.append(line);
  });
  return item;
}

function providedRoute(route) {
  const item = element("li");
  item.append(link(route.client), " ", element("code", "quiet", route.asked), " ", entryLink(route.entry));
  return item;
}

function entryItem(number) {
  const [caller, asked, reply] = data.entries[number - 1];
  const item = element("li");
  item.append(entryLink(number), element("span", "quiet", "  lane " + caller + "  "), asked,
    element("span", "arrow", "→"), element("span", BAD.test(reply) ? "bad" : "", reply));
  return item;
}

function entryItems(instance) {
  const numbers = (entriesOf.get(instance.incarnation) || []).filter((number) => number <= view.now);
  const shown = numbers.slice(-MANY);
  const left = numbers.length - shown.length;
  const more = left ? [element("li", "quiet", left + " earlier entries stand in the timeline")] : [];
  return more.concat(shown.map(entryItem));
}

function changeItems(instance) {
  return instance.changes.filter((change) => change[0] <= view.now).map(([number, state]) => {
    const item = element("li", "chip");
    item.append(dot(state), element("span", "held", state), number ? entryLink(number) : "at the start");
    return item;
  });
}

function drawDetails() {
  const box = at("details");
  const instance = byIncarnation.get(view.chosen);
  if (!instance) {
    const wish = "Choose an instance of the tree: its state, routes and entries stand here.";
    box.replaceChildren(element("p", "quiet", wish));
    return;
  }
  if (!isThere(instance)) {
    const line = element("p", "quiet", "It isn't there yet: it comes by ");
    line.append(entryLink(instance.born), ".");
    box.replaceChildren(element("h2", "", instance.moniker), line);
    return;
  }
  const told = routesNow(instance.incarnation);
  const asked = told.filter((route) => route.client === instance.incarnation);
  const given = told.filter((route) => route.provider === instance.incarnation);
  box.replaceChildren(
    element("h2", "", instance.moniker === "." ? ". (the root)" : instance.moniker),
    facts(instance, stateAt(instance, view.now)),
    ...graphed(instance, asked, given),
    ...listed("States", changeItems(instance)),
    ...listed("Routes that it asked for", asked.map(clientRoute)),
    ...listed("Routes that lead to it", given.map(providedRoute)),
    ...declared(instance),
    ...listed("Entries", entryItems(instance)),
  );
  box.scrollTop = 0;
}

// What was last told of each route of an instance by now: its own, and those that led to it when their
// clients last asked.
function routesNow(incarnation) {
  const lasts = new Map(), found = new Set();
  for (const { client, asked } of askingsOf.get(incarnation) || []) {
    if (!lasts.has(client)) lasts.set(client, lastTold(client));
    const last = lasts.get(client).get(asked);
    if (last && (client === incarnation || last.provider === incarnation)) found.add(last);
  }
  return [...found];
}

// What a client was last told of each of its routes by now.
function lastTold(client) {
  const found = new Map();
  for (const asking of askingsOf.get(client)) {
    if (asking.entry > view.now) break;
    if (asking.client === client) found.set(asking.asked, asking);
  }
  return found;
}

// ---- the graph of routes

const SHOWN = 12;
const SVG = ["http", "//www.w3.org/2000/svg"].join(":");

function shape(tag, values, text) {
  const made = document.createElementNS(SVG, tag);
  for (const [name, value] of Object.entries(values)) made.setAttribute(name, value);
  if (text !== undefined) made.textContent = text;
  return made;
}

function cut(text, length) {
  return text.length > length ? "…" + text.slice(1 - length) : text;
}

function node(x, y, text, act) {
  const group = shape("g", act ? { class: "node", tabindex: 0, role: "link" } : { class: "node" });
  group.append(shape("title", {}, text), shape("rect", { x, y: y - 11, width: 150, height: 22, rx: 5 }),
    shape("text", { x: x + 75, y: y + 4, "text-anchor": "middle" }, cut(text, 22)));
  if (!act) return group;
  group.addEventListener("click", act);
  group.addEventListener("keydown", (event) => {
    if (event.key === "Enter") act();
  });
  return group;
}

// A line from the side of the instance in the middle, which fans out and then is level, with its label there.
function edge(hub, end, label, isRefused) {
  const [x, y] = end, level = hub[0] + Math.sign(x - hub[0]) * 40, half = (hub[0] + level) / 2;
  const way = `M${hub[0]},${hub[1]} C${half},${hub[1]} ${half},${y} ${level},${y} L${x},${y}`;
  const group = shape("g", { class: isRefused ? "edge refused" : "edge" });
  const text = cut(label.replace(/^exposed /, ""), 28);
  group.append(shape("title", {}, label), shape("path", { d: way }),
    shape("text", { x: (level + x) / 2, y: y - 4, "text-anchor": "middle" }, text));
  return group;
}

// The clients of an instance at the left, and at the right what its own uses lead to, refused ones dashed.
function graphed(instance, asked, given) {
  const clients = given.filter((route) => route.client !== instance.incarnation).slice(0, SHOWN);
  const uses = asked.slice(0, SHOWN);
  const rows = Math.max(clients.length, uses.length);
  if (!rows) return [];
  const height = rows * 34 + 12, middle = height / 2;
  // A side with nothing on it takes no room.
  const left = clients.length ? 0 : 345, width = (uses.length ? 860 : 515) - left;
  const box = shape("svg", {
    class: "graph", viewBox: `${left} 0 ${width} ${height}`, role: "img",
    style: `min-width: ${Math.round(width * 0.72)}px; max-width: ${width}px`,
  });
  box.append(shape("title", {}, "the routes of " + instance.moniker));
  clients.forEach((route, index) => {
    const y = 22 + index * 34;
    box.append(edge([355, middle], [150, y], route.asked, false),
      node(0, y, byIncarnation.get(route.client).moniker, () => choose(route.client, true)));
  });
  uses.forEach((route, index) => {
    const y = 22 + index * 34, isRefused = !route.hops.length;
    const told = isRefused ? route.told : route.provider === null ? route.source : monikerOf(route.provider);
    const act = route.provider === null ? null : () => choose(route.provider, true);
    box.append(edge([505, middle], [710, y], route.asked, isRefused), node(710, y, told, act));
  });
  box.append(node(355, middle, instance.moniker, null));
  const others = given.length + asked.length - clients.length - uses.length;
  const more = others > 0 ? [element("p", "quiet", others + " further routes stand below")] : [];
  const frame = element("div", "frame");
  frame.append(box);
  return [element("h3", "", "Routes as a graph"), frame, ...more];
}

function monikerOf(incarnation) {
  return byIncarnation.get(incarnation).moniker;
}

function declared(instance) {
  const text = data.declarations[instance.incarnation];
  if (!text || !isResolved(instance)) return [];
  const box = element("details");
  const shown = JSON.stringify(JSON.parse(text), null, 2);
  box.append(element("summary", "", "declaration"), element("pre", "", shown));
  return [element("h3", "", "Manifest"), box];
}

// ---- the timeline

function entryNumbers() {
  if (view.only && view.chosen !== null) return entriesOf.get(view.chosen) || [];
  return data.entries.map((_, index) => index + 1);
}

function drawEntry(number) {
  const [caller, asked, reply, subjects] = data.entries[number - 1];
  const isChosen = view.chosen !== null && subjects.includes(view.chosen);
  const row = element("div", "row" + (isChosen ? " chosen" : "") + (number > view.now ? " later" : ""));
  row.append(element("span", "number", String(number)));
  for (const one of data.callers) row.append(element("span", one === caller ? "lane on" : "lane"));
  const told = element("span", "told", asked);
  told.append(element("span", "arrow", "→"), element("span", BAD.test(reply) ? "bad" : "", reply));
  row.append(told);
  row.addEventListener("click", () => {
    if (subjects.length) choose(subjects[0], true, number);
  });
  return row;
}

function drawLanes() {
  const box = at("lanes");
  box.replaceChildren(element("span", "number", "lane"));
  for (const caller of data.callers) box.append(element("span", "lane", String(caller)));
  const only = element("input");
  only.type = "checkbox";
  only.checked = view.only;
  only.addEventListener("change", () => {
    view.only = only.checked;
    timeline.fill(entryNumbers());
  });
  const label = element("label", "");
  label.append(only, "only the chosen instance");
  box.append(element("span", "told", "what was asked → what was answered"), label);
}

function showEntry(number) {
  if (view.only && number && !timeline.items.includes(number)) {
    view.only = false;
    drawLanes();
    timeline.fill(entryNumbers());
  }
  const index = timeline.items.indexOf(number);
  if (index >= 0) timeline.reveal(index); else timeline.paint();
}

// ---- the whole

function choose(incarnation, fromElsewhere, entry) {
  view.chosen = incarnation;
  if (fromElsewhere) unfoldTo(incarnation);
  drawTree();
  if (fromElsewhere) tree.reveal(tree.items.findIndex((item) => item.instance.incarnation === incarnation));
  drawDetails();
  if (view.only) timeline.fill(entryNumbers());
  showEntry(entry || (entriesOf.get(incarnation) || []).find((number) => number <= view.now));
  keepAddress();
}

function drawCounts() {
  const counts = new Map();
  for (const instance of data.instances) {
    if (!isThere(instance)) continue;
    const state = stateAt(instance, view.now);
    counts.set(state, (counts.get(state) || 0) + 1);
  }
  const chips = Object.keys(data.states).filter((state) => counts.has(state)).map((state) => {
    const chip = element("span", "chip");
    chip.title = data.states[state];
    chip.append(dot(state), counts.get(state) + " " + state);
    return chip;
  });
  at("counts").replaceChildren(...chips);
}

function moveTo(moment) {
  view.now = moment;
  at("slider").value = moment;
  at("number").value = moment;
  at("now").textContent = "of " + data.total;
  drawCounts();
  drawTree();
  drawDetails();
  timeline.paint();
  keepAddress();
}

function search(text) {
  view.query = text.trim().toLowerCase();
  drawTree();
  keepAddress();
}

function chooseFirstFound() {
  const found = tree.items.find((item) => matches(item.instance));
  if (found) choose(found.instance.incarnation, true);
}

function moveInTree(event) {
  const index = tree.items.findIndex((item) => item.instance.incarnation === view.chosen);
  const item = tree.items[index];
  const step = { ArrowDown: 1, ArrowUp: -1 }[event.key];
  if (step) {
    const next = tree.items[Math.min(tree.items.length - 1, Math.max(0, index + step))];
    if (!next) return;
    choose(next.instance.incarnation, true);
  } else if (item && (event.key === "ArrowLeft") === item.isOpen && event.key.startsWith("Arrow")) {
    toggle(item.instance.incarnation);
  } else {
    return;
  }
  event.preventDefault();
}

// Many instances begin folded: all that stand below the second level.
function foldAtFirst() {
  if (data.instances.length <= MANY) return;
  for (const instance of data.instances) {
    if (instance.children.length && instance.parent !== null) view.folded.add(instance.incarnation);
  }
}

function setTheme(theme) {
  document.documentElement.dataset.theme = theme;
}

// ---- the address

// What the address asks for, and what in it is nonsense, in words.
function readAddress(hash) {
  const wish = new URLSearchParams(hash.replace(/^#/, ""));
  const wrong = [...wish.keys()].filter((key) => !["m", "i", "q", "n", "theme"].includes(key))
    .map((key) => "“" + key + "” is no word of it");
  const theme = wish.get("theme");
  const asked = { query: wish.get("q") || "", moment: data.at, chosen: null, theme, wrong };
  if (wish.has("n")) {
    const number = /^[0-9]+$/.test(wish.get("n")) ? Number(wish.get("n")) : -1;
    if (number < 0 || number > data.at) wrong.push("there is no entry " + wish.get("n") + " of " + data.at);
    else asked.moment = number;
  }
  if (asked.theme && !["dark", "light"].includes(asked.theme)) {
    wrong.push("there is no theme " + asked.theme);
    asked.theme = null;
  }
  if (wish.has("m") || wish.has("i")) asked.chosen = instanceOf(wish, asked.moment, wrong);
  return asked;
}

function instanceOf(wish, moment, wrong) {
  const moniker = (wish.get("m") || "").replace(/^\/(?=.)/, "");
  const found = wish.has("i") ? byIncarnation.get(Number(wish.get("i"))) : lastOf(moniker, moment);
  if (found) return found.incarnation;
  wrong.push("there is no instance " + (wish.has("i") ? "@" + wish.get("i") : wish.get("m")));
  return null;
}

function tellWrong(place, wrong) {
  at("wrong").textContent = wrong.length ? place + ": " + wrong.join("; ") + "." : "";
  at("wrong").hidden = !wrong.length;
}

// Shows what the address asks for.
function follow() {
  const asked = readAddress(location.hash);
  if (asked.theme) setTheme(asked.theme);
  tellWrong("In the address", asked.wrong);
  at("search").value = asked.query;
  view.query = asked.query.trim().toLowerCase();
  view.chosen = asked.chosen;
  moveTo(asked.moment);
  if (asked.chosen !== null) choose(asked.chosen, true);
  if (asked.moment !== data.at) showEntry(view.now);
}

// Puts what is shown into the address, so that it can be given away.
function keepAddress() {
  const words = new URLSearchParams();
  if (view.chosen !== null) {
    const moniker = byIncarnation.get(view.chosen).moniker;
    const isLast = lastOf(moniker, view.now).incarnation === view.chosen;
    words.set(isLast ? "m" : "i", isLast ? moniker : String(view.chosen));
  }
  if (view.query) words.set("q", view.query);
  if (view.now !== data.at) words.set("n", String(view.now));
  try {
    history.replaceState(null, "", "#" + words);
  } catch {
    // Some browsers let a page of a file change nothing there.
  }
}

function begin() {
  setTheme(matchMedia("(prefers-color-scheme: dark)").matches ? "dark" : "light");
  at("root").textContent = data.root;
  at("slider").max = data.at;
  at("number").max = data.at;
  foldAtFirst();
  drawLanes();
  timeline.fill(entryNumbers());
  follow();
}

const tree = new Rows(at("tree"), drawInstance);
const timeline = new Rows(at("entries"), drawEntry);
at("search").addEventListener("input", (event) => search(event.target.value));
at("search").addEventListener("keydown", (event) => {
  if (event.key === "Enter") chooseFirstFound();
});
at("fold").addEventListener("click", () => {
  for (const instance of data.instances) {
    if (instance.children.length && instance.parent !== null) view.folded.add(instance.incarnation);
  }
  drawTree();
});
at("unfold").addEventListener("click", () => {
  view.folded.clear();
  drawTree();
});
at("slider").addEventListener("input", (event) => {
  moveTo(Number(event.target.value));
  showEntry(view.now);
});
at("number").addEventListener("change", (event) => {
  const number = Number(event.target.value);
  const isRight = /^[0-9]+$/.test(event.target.value) && number <= data.at;
  const told = "there is no entry " + (event.target.value || "without a number") + " of " + data.at;
  tellWrong("The moment", isRight ? [] : [told]);
  moveTo(isRight ? number : view.now);
  if (isRight) showEntry(number);
});
window.addEventListener("hashchange", follow);
at("theme").addEventListener("click", () => {
  setTheme(document.documentElement.dataset.theme === "dark" ? "light" : "dark");
});
at("tree").addEventListener("keydown", moveInTree);
begin();
