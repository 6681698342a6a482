"use strict";
// Shows the steps of a session, or the rows of a log. What each step changes comes from the data; here it is only applied, undone and drawn.
{
  const byId = (id) => document.getElementById(id);
  const make = (tag, className, text) => {
    const element = document.createElement(tag);
    if (className) element.className = className;
    if (text) element.textContent = text;
    return element;
  };
  const data = JSON.parse(byId("data").textContent);
  const items = byId("steps").querySelectorAll("li");
  const last = data.steps.length;
  const changesOf = (step) => (step > 0 && data.steps[step - 1] !== 0 ? data.steps[step - 1][3] : []);
  // With what rows that are not shown have changed before it.
  const allOf = (step) => (data.steps[step - 1][4] || []).concat(changesOf(step));

  // The row of a step, in a log, and the step of a row; else they are the same.
  const numberOf = (step) => (data.rows ? data.rows[step - 1] : step);
  const stepOf = (number) => (data.rows ? data.rows.indexOf(number) + 1 : number);

  // A bad line is 0, and so is its outcome.
  const outcomeOf = (step) => data.outcomes[data.steps[step - 1] !== 0 ? data.steps[step - 1][2] : 0];

  // What is shown now.
  let at = 0;
  let named = data.named;
  const clients = data.clients.slice();
  const ledgers = new Map();
  const listed = [];
  const touched = new Set();

  // Each kind of change by its number: how it is applied, and how it is undone.
  const CREATED = 0, LISTED = 1, CONDITION = 2, STORED = 3, NAMED = 4, STANDING = 5, BLOCKED = 6;
  const apply = {
    [CREATED]: (ledger, condition) => ledgers.set(ledger, block(ledger, condition)),
    [LISTED]: (ledger) => listed.push(ledger),
    [CONDITION]: (ledger, from, to) => { ledgers.get(ledger).condition = to; },
    [STORED]: (ledger, client, value) => ledgers.get(ledger).entries.push([client, value]),
    [NAMED]: (from, to) => { named = to; },
    [STANDING]: (client, from, to) => { clients[client] = to; },
    [BLOCKED]: () => {},
  };
  const undo = {
    [CREATED]: (ledger) => ledgers.delete(ledger),
    [LISTED]: () => listed.pop(),
    [CONDITION]: (ledger, from) => { ledgers.get(ledger).condition = from; },
    [STORED]: (ledger) => ledgers.get(ledger).entries.pop(),
    [NAMED]: (from) => { named = from; },
    [STANDING]: (client, from) => { clients[client] = from; },
    [BLOCKED]: () => {},
  };
  const isOfLedger = (kind) => kind !== NAMED && kind !== STANDING;
  const run = (how, changes) => {
    for (const [kind, ...what] of changes) {
      how[kind](...what);
      if (isOfLedger(kind)) touched.add(what[0]);
    }
  };

  // Where each client stood from which step on, for the lanes.
  const stood = data.clients.map((standing) => [[0, standing]]);
  data.steps.forEach((_, index) => {
    for (const [kind, client, , to] of allOf(index + 1)) {
      if (kind === STANDING) stood[client].push([index + 1, to]);
    }
  });
  const standingAt = (client, step) => {
    const runs = stood[client];
    let low = 0, high = runs.length;
    while (high - low > 1) {
      const middle = (low + high) >> 1;
      if (runs[middle][0] <= step) low = middle; else high = middle;
    }
    return runs[low];
  };

  // ---- the ledgers
  function block(number, condition) {
    const element = make("li");
    const box = element.appendChild(make("div", "box"));
    const head = box.appendChild(make("p", "head"));
    head.appendChild(make("b", "", `ledger ${number}`));
    const state = head.appendChild(make("span", "state"));
    const chips = box.appendChild(make("ol", "entries"));
    chips.setAttribute("role", "list");
    chips.setAttribute("aria-label", `entries of ledger ${number}`);
    element.appendChild(make("div", "fence")).setAttribute("aria-hidden", "true");
    return { element, state, chips, condition, entries: [] };
  }

  const chip = ([client, value], className) => make("li", `chip c${client} ${className}`, `${client}:${value}`);

  function drawLedger(ledger) {
    const [text, classes] = data.conditions[ledger.condition];
    ledger.element.className = `ledger ${classes}`;
    ledger.state.textContent = text;
    while (ledger.chips.childElementCount > ledger.entries.length) ledger.chips.lastElementChild.remove();
    const more = document.createDocumentFragment();
    for (const entry of ledger.entries.slice(ledger.chips.childElementCount)) more.append(chip(entry, ""));
    ledger.chips.append(more);
  }

  // Leaves the list with these elements in this order, and touches only what differs.
  function arrange(list, elements) {
    elements.forEach((element, place) => {
      if (list.children[place] !== element) list.insertBefore(element, list.children[place] || null);
    });
    while (list.childElementCount > elements.length) list.lastElementChild.remove();
  }

  function drawLedgers() {
    for (const number of touched) if (ledgers.has(number)) drawLedger(ledgers.get(number));
    touched.clear();
    const isListed = new Set(listed);
    const beside = [...ledgers.keys()].filter((number) => !isListed.has(number));
    arrange(byId("chain"), listed.map((number) => ledgers.get(number).element));
    arrange(byId("unlisted"), beside.map((number) => ledgers.get(number).element));
    byId("no-chain").hidden = listed.length > 0;
    byId("none-unlisted").hidden = beside.length > 0;
  }

  // ---- what this step has changed
  function clearMarks() {
    for (const element of document.querySelectorAll(".changed")) element.classList.remove("changed");
    for (const element of document.querySelectorAll(".blocked")) element.remove();
  }

  function mark() {
    for (const [kind, number, client, value] of changesOf(at)) {
      if (!isOfLedger(kind)) continue;
      const { element, chips } = ledgers.get(number);
      if (kind === BLOCKED) {
        const refused = element.appendChild(make("p", "blocked"));
        refused.append(make("span", `chip c${client}`, `${client}:${value}`), make("b", "", data.blocked));
      } else {
        (kind === STORED ? chips.lastElementChild : element).classList.add("changed");
      }
      reveal(element.parentElement, kind === STORED ? chips.lastElementChild : element, 0);
    }
  }

  // Scrolls this part alone, so that the page stays where the reader has it. Some of its top may be covered.
  function reveal(part, element, covered) {
    const outer = part.getBoundingClientRect(), inner = element.getBoundingClientRect();
    if (inner.bottom > outer.bottom) part.scrollTop += inner.bottom - outer.bottom + 8;
    if (inner.top < outer.top + covered) part.scrollTop -= outer.top + covered - inner.top + 8;
  }

  // ---- the lanes
  // The steps that fit beside the clients, with the present one among them.
  function columns() {
    const size = parseFloat(getComputedStyle(document.documentElement).fontSize);
    const [beside, column] = ["--beside", "--column"].map((name) => parseFloat(getComputedStyle(byId("lanes")).getPropertyValue(name)));
    const fit = Math.max(3, Math.floor((byId("lanes").parentElement.clientWidth / size - beside) / column));
    const count = Math.min(last + 1, fit);
    const from = Math.max(0, Math.min(at - Math.floor(count * 0.7), last + 1 - count));
    return Array.from({ length: count }, (_, place) => from + place);
  }

  function stepHead(step) {
    const head = make("th", step === at ? "now" : "", step === 0 ? "start" : String(numberOf(step)));
    head.scope = "col";
    head.dataset.step = step;
    if (step > 0 && step <= at && outcomeOf(step)) head.classList.add(outcomeOf(step));
    return head;
  }

  function laneHead(client) {
    const head = make("th", `c${client}`);
    head.scope = "row";
    const who = head.appendChild(make("span", "who"));
    who.append(make("b", "chip", `client ${client}`));
    if (named === client) who.append(make("span", "named", data.leader));
    head.append(make("span", "stands", data.standings[clients[client]][1]));
    const isNews = ([kind, one, two]) => (kind === STANDING && one === client) || (kind === NAMED && two === client);
    if (changesOf(at).some(isNews)) head.classList.add("changed");
    return head;
  }

  function markOf(step, text) {
    const mark = make("span", `mark ${outcomeOf(step)}`, text);
    if (outcomeOf(step)) mark.append(make("span", "spoken", ` ${outcomeOf(step)}`));
    return mark;
  }

  function laneCell(client, step, isFirst) {
    const cell = make("td", `c${client}`);
    cell.dataset.step = step;
    if (step === at) cell.classList.add("now");
    if (step > at) return cell;
    const taken = step > 0 ? data.steps[step - 1] : 0;
    const byClient = taken !== 0 && taken[0] === client;
    cell.append(byClient ? markOf(step, taken[1]) : make("span", "mark none"));
    const [since, standing] = standingAt(client, step);
    const [word, , classes] = data.standings[standing];
    const band = cell.appendChild(make("span", `band ${classes}`));
    if (word && (isFirst || since === step)) band.append(make("span", "", word));
    return cell;
  }

  function drawLanes() {
    const shown = columns();
    const head = make("tr");
    head.append(make("th", "corner", "client"), ...shown.map(stepHead));
    const rows = clients.map((_, client) => {
      const row = make("tr");
      row.append(laneHead(client), ...shown.map((step, place) => laneCell(client, step, place === 0)));
      return row;
    });
    byId("lanes").replaceChildren(head, ...rows);
    const acting = at > 0 && data.steps[at - 1] !== 0 ? rows[data.steps[at - 1][0]] : undefined;
    if (acting) reveal(byId("lanes-part"), acting, head.offsetHeight);
  }

  // ---- the step in words
  function drawStep() {
    const item = at > 0 ? items[at - 1] : byId("start");
    const [line, reply] = ["code", "b"].map((part) => item.querySelector(part)?.textContent || "");
    // Most bad lines have no text of their own.
    const text = (item.querySelector("span") || byId("no-step")).textContent;
    byId("step").className = item.className;
    byId("line").textContent = line;
    byId("reply").textContent = reply;
    byId("text").textContent = text;
    byId("place").textContent = `step ${at} of ${last}`;
    const time = item.querySelector("time")?.textContent;
    const when = data.rows && at > 0 ? [`row ${numberOf(at)}`, time].filter((part) => part).join(", ") : "";
    if (data.rows) byId("when").textContent = when;
    const said = [byId("place").textContent, line, reply, text, when].filter((part) => part).join(". ");
    byId("told").textContent = said;
    byId("slider").value = at;
    byId("slider").setAttribute("aria-valuetext", said);
    byId("results").hidden = at < last;
    for (const id of ["first", "back"]) byId(id).setAttribute("aria-disabled", at === 0);
    for (const id of ["forward", "last"]) byId(id).setAttribute("aria-disabled", at === last);
  }

  function markItem(step, isCurrent) {
    const link = step > 0 ? items[step - 1].querySelector("a") : null;
    if (link && isCurrent) link.setAttribute("aria-current", "step");
    else if (link) link.removeAttribute("aria-current");
  }

  // ---- moving
  function go(wanted) {
    const to = Math.max(0, Math.min(last, wanted));
    clearMarks();
    markItem(at, false);
    for (; at < to; at++) run(apply, allOf(at + 1));
    for (; at > to; at--) run(undo, allOf(at).reverse());
    drawStep();
    drawLedgers();
    drawLanes();
    mark();
    markItem(at, true);
  }

  const keys = { ArrowRight: () => at + 1, ArrowLeft: () => at - 1, Home: () => 0, End: () => last };
  addEventListener("keydown", (event) => {
    // The slider has these keys by itself.
    if (!(event.key in keys) || event.target === byId("slider")) return;
    if (event.altKey || event.ctrlKey || event.metaKey || event.shiftKey) return;
    event.preventDefault();
    go(keys[event.key]());
  });
  byId("first").addEventListener("click", () => go(0));
  byId("back").addEventListener("click", () => go(at - 1));
  byId("forward").addEventListener("click", () => go(at + 1));
  byId("last").addEventListener("click", () => go(last));
  byId("slider").addEventListener("input", () => go(Number(byId("slider").value)));
  byId("lanes").addEventListener("click", (event) => {
    const cell = event.target.closest("[data-step]");
    if (cell) go(Number(cell.dataset.step));
  });
  byId("steps").addEventListener("click", (event) => {
    const link = event.target.closest("a");
    if (!link) return;
    event.preventDefault();
    go(stepOf(Number(link.hash.slice(1))));
    scrollTo(0, 0);
  });
  addEventListener("resize", drawLanes);

  byId("slider").max = last;
  // Five lanes or more are drawn smaller, and nine or more are scrolled, so that the ledgers below them are seen.
  if (clients.length > 4) byId("lanes").className = "many";
  if (clients.length > 8) {
    byId("lanes-part").className = "scrolled";
    byId("lanes-part").tabIndex = 0;
  }
  document.documentElement.classList.add("scripted");
  run(apply, data.begin || []);
  go(stepOf(Number(location.hash.slice(1))) || 0);
}
