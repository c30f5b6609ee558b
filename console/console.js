// The page of a desk. What comes from the desk, from a file or from the user is put in as text, never as markup.

import { isTooLong, readImport, textOf, writeImport } from "./csv.js";
import { coveredBy, overlap, placeOf, readPlace, readPrefix } from "./prefixes.js";
import {
  THEN_UNKNOWN, effectsOf, findDay, isStill, momentsOf, outcomeOf, questionsOf, sentencesOf, statesOf, worstOf,
} from "./reports.js";
import { SENTENCES, faultOf } from "./sentences.js";
import {
  LOOSE, MOST_ENTRIES, amendmentOf, asOf, count, daysOf, describe, entriesGiven, entriesOf, faultOfEntries, isDay,
  isExact, isName, originOf, ownRoutes, prefixesOf, readEntries, showEntry, showOrigin, stateOn, termsOf,
} from "./values.js";

const SIGNS = { Valid: "✓", Invalid: "✗", NotFound: "?" };
const KINDS = { Valid: "good", Invalid: "bad", NotFound: "open" };
const SHOWN_AT_MOST = 500;
const ASKED_AT_MOST = 10000;
const OFFERED_AT_MOST = 8;
const KEPT_HOLDERS = 8;
const SEARCHED_IN_A_FRAME = 1000;

// Elements

const $ = (id) => document.getElementById(id);

function element(tag, properties = {}, ...children) {
  const made = Object.assign(document.createElement(tag), properties);
  made.append(...children);
  return made;
}

/** A row of a table. A narrow screen shows rows as blocks, which take their roles from them. */
const rowOf = (...contents) =>
  element("tr", { role: "row" }, ...contents.map((content) => element("td", { role: "cell" }, content)));

/** Names the cells of a row by their columns, for a narrow screen. */
function nameCells(row, names) {
  [...row.children].forEach((cell, at) => {
    cell.dataset.name = names[at] ?? "";
  });
  return row;
}

function say(place, text, kind = "") {
  place.textContent = text;
  place.className = kind;
}

const statusOf = (form) => form.querySelector("output");

function badge(state, words = state) {
  return element("span", { className: `state ${KINDS[state]}` }, `${SIGNS[state]} ${words}`);
}

const cutOf = (number) => (number > SHOWN_AT_MOST ? ` The first ${SHOWN_AT_MOST} are shown.` : "");

const fillings = new WeakMap();

/**
 * Puts rows into a table in place of those that it has: ten in each frame, so that the page answers meanwhile. A later
 * filling ends this one. A browser need not lay out the groups off the screen. A group that has its rows already stays,
 * and what is left over goes from the end, so that nothing moves onto the screen.
 */
function fill(table, rows, toRow) {
  const filling = {};
  fillings.set(table, filling);
  const olds = [...table.tBodies];
  let next = 0;
  const putGroup = () => {
    const made = rows.slice(next, next + 10).map(toRow);
    next += 10;
    const old = olds.shift();
    if (made.length === old?.rows.length && made.every((row, at) => row === old.rows[at])) return;
    const group = element("tbody", { role: "rowgroup" }, ...made);
    if (old) old.replaceWith(group);
    else table.append(group);
  };
  const step = () => {
    if (fillings.get(table) !== filling) return;
    if (next < rows.length) putGroup();
    else olds.splice(-20).forEach((old) => old.remove());
    if (next < rows.length || olds.length) requestAnimationFrame(step);
  };
  step();
}

/** Does a task in the next frame, once however often it is asked for. */
function inNextFrame(task) {
  let frame = 0;
  return () => {
    cancelAnimationFrame(frame);
    frame = requestAnimationFrame(task);
  };
}

function save(name, type, content) {
  const address = URL.createObjectURL(new Blob([content], { type }));
  element("a", { href: address, download: name }).click();
  setTimeout(() => URL.revokeObjectURL(address), 10000);
}

// Values

/** What a field asks for. A text that is none is sent as it is, and the desk says what is wrong with it. */
const prefixIn = (id) => readPrefix($(id).value)?.text ?? $(id).value.trim();
const nameIn = (id) => $(id).value.trim();
const pathOf = (...parts) => parts.map((part) => `/${encodeURIComponent(part)}`).join("");

// The day that the list is shown for: the last one in its field that is a day.
let shownDay = "";
const stateOf = (auth) => stateOn(auth, shownDay);

// The desk

/** What the front refuses because too many requests came at once has not reached the desk: it is sent again. */
async function fetchAgain(address, options) {
  for (let left = 5; ; left--) {
    const response = await fetch(address, options);
    if (response.status !== 429 || left === 0) return response;
    await new Promise((resume) => setTimeout(resume, 1000));
  }
}

/** Sends one request. The result has the text and the reply of an answer, or else what went wrong as `fault`. */
async function ask(method, path, body, isQuestion = method === "GET") {
  let status = "lost";
  let text = "";
  let reply;
  try {
    const content = body === undefined || body instanceof Blob ? body : JSON.stringify(body);
    const signal = AbortSignal.timeout(90000);
    const options = { method, body: content, cache: "no-store", signal };
    const response = await fetchAgain(location.origin + path, options);
    ({ status } = response);
    text = await response.text();
    if (response.headers.get("Content-Type")?.startsWith("application/json")) reply = JSON.parse(text);
  } catch {
    status = "lost";
  }
  if (status === 200) return { text, reply, isClear: true };
  const isUnclear = status === "lost" || status >= 500;
  const isClear = Boolean(reply?.denied);
  return { fault: faultOf(status, reply, isQuestion), rule: reply?.denied, row: reply?.row, isUnclear, isClear };
}

const question = (path, body) => ask("POST", path, body, true);

// What the browser keeps, for each user

let caller = "";

function recall(what) {
  try {
    return localStorage.getItem(`roadesk ${what} ${caller}`) ?? "";
  } catch {
    return "";
  }
}

function keep(what, text) {
  try {
    localStorage.setItem(`roadesk ${what} ${caller}`, text);
    return true;
  } catch {
    return false;
  }
}

// Authorizations

const COLUMNS = [
  ["Number", (line) => line.auth.number],
  ["AS", (line) => line.auth.asn],
  ["Prefix-maxLength", (line) => (line.place ??= placeOfText(entriesOf(line.auth)[0].prefix))],
  ["First day", (line) => line.auth.from],
  ["Last day", (line) => line.auth.until],
  ["State", (line) => line.state],
];

let holder = "";
let lines = [];
const places = new Map();
let sorted = { column: 0, falls: false };

/** The place of a prefix in the order of prefixes, which is found once for all lists. */
function placeOfText(prefix) {
  if (!places.has(prefix)) places.set(prefix, placeOf(readPrefix(prefix)));
  return places.get(prefix);
}

/** What is sorted and filtered. The place of its prefix and its row are made when they are needed, and once. */
function toLine(auth) {
  const words = entriesOf(auth).map(({ prefix, max }) => `${prefix}-${max}`).join(" ");
  return { auth, state: stateOf(auth), words: `as${auth.asn} ${words} ${auth.from} ${auth.until} #${auth.number}` };
}

function listRow({ auth, state }) {
  const kinds = { "in force": "good", "to come": "open", past: "past" };
  const entries = entriesOf(auth).map((entry) => (isExact(entry) ? showEntry(entry)
    : element("span", {}, showEntry(entry), element("span", { className: "loose", title: LOOSE }, " loose"))));
  const prefixes = entries.length === 1 ? entries[0]
    : element("div", {}, ...entries.map((entry) => element("div", {}, entry)));
  const more = element("button", { type: "button", ariaLabel: `Open authorization ${auth.number}` }, "Open");
  more.dataset.number = auth.number;
  const row = rowOf(
    `${auth.number}`, `AS${auth.asn}`, prefixes, auth.from, auth.until,
    element("span", { className: `state ${kinds[state]}` }, state), more,
  );
  return nameCells(row, COLUMNS.map(([name]) => name));
}

/** A test by a word: an address or a prefix in any spelling finds what covers it or lies in it. */
function testOf(word, wordsOf, placesOf) {
  const place = readPlace(word);
  if (!place) return (item) => wordsOf(item).includes(word);
  return (item) => placesOf(item).some((other) => overlap(other, place));
}

const filterOf = (word) => testOf(word, (line) => line.words, (line) => (line.places ??= prefixesOf(line.auth)));

function showList() {
  const words = $("filter").value.toLowerCase().split(/\s+/).filter(Boolean);
  const tests = words.map(filterOf);
  const state = $("filter-state").value;
  const value = COLUMNS[sorted.column][1];
  const order = (one, other) => (value(one) < value(other) ? -1 : Number(value(one) > value(other)));
  const found = lines
    .filter((line) => (!state || line.state === state) && tests.every((test) => test(line)))
    .sort((one, other) => (sorted.falls ? -1 : 1) * order(one, other));
  [...$("sorts").children].forEach((head, at) => {
    head.ariaSort = at !== sorted.column ? "none" : sorted.falls ? "descending" : "ascending";
    if (COLUMNS[at]) head.firstChild.lastChild.textContent = at !== sorted.column ? "" : sorted.falls ? " ▼" : " ▲";
  });
  const all = count(lines.length, "authorization");
  say($("count"), found.length === lines.length ? all : `${found.length.toLocaleString("en")} of ${all}`);
  const nothing = lines.length ? "Nothing matches the filter."
    : `${holder} has no authorization that you may see. Create one, or import those that you have elsewhere as CSV.`;
  $("list-hint").textContent = found.length ? "" : nothing;
  fill($("auths"), found, (line) => (line.row ??= listRow(line)));
}

function makeSorts() {
  const heads = COLUMNS.map(([name], column) => {
    const sign = element("span", { ariaHidden: "true" });
    const head = element("th", { scope: "col" }, element("button", { type: "button" }, name, sign));
    head.addEventListener("click", () => {
      sorted = { column, falls: sorted.column === column && !sorted.falls };
      showList();
    });
    return head;
  });
  heads.push(element("th", { scope: "col", ariaLabel: "Open" }));
  for (const head of heads) head.role = "columnheader";
  $("sorts").append(...heads);
}

// The holder that was asked for last, unless that failed.
let opening = "";

/** Asks for a holder's authorizations: those that the caller may see. A dialog of the holder before it is closed. */
async function openHolder(name) {
  opening = name;
  namePage();
  const { reply, fault } = isName(name) ? await ask("GET", pathOf("holders", name, "auths"))
    : { fault: SENTENCES.malformed[3] };
  if (opening !== name) return;
  for (const id of ["holder-view", "holder-tasks"]) $(id).hidden = Boolean(fault);
  $("holder-hint").hidden = !fault;
  if (fault) {
    opening = "";
    namePage();
    return say($("notice"), `${name}: ${fault}`, "fault");
  }
  if (holder && holder !== name) for (const id of ["change", "details"]) $(id).close();
  holder = name;
  goToHolder();
  $("authorizations-title").textContent = `Authorizations of ${holder}`;
  $("open").querySelector("button").className = "";
  showListed(reply.listed);
  findingDay = askDay(lines[0]?.auth ?? ANY_TERMS);
}

/** Lists the holder's authorizations after what was done, which stays said if that fails. */
async function listAnew(done) {
  const name = holder;
  const { reply, fault } = await ask("GET", underHolder("auths"));
  if (holder !== name) return;
  if (fault) return say($("notice"), `${done} The list below is from before, since it did not come again: ${fault}`, "done");
  showListed(reply.listed);
}

const showListSoon = inNextFrame(showList);

function showListed(listed) {
  lines = listed.map(toLine);
  showListSoon();
}

/** Shows what is in force, to come or past on a day. */
function showAsOf(day) {
  if (!isDay(day)) return say($("notice"), `${day || "An empty field"}: ${SENTENCES.malformed[8]}`, "fault");
  $("day").value = shownDay = day;
  lines = lines.map(({ auth }) => toLine(auth));
  showListSoon();
}

const underHolder = (...parts) => pathOf("holders", holder, ...parts);

let detailed = null;

function showDetails(auth) {
  detailed = auth;
  $("details-title").textContent = `Authorization ${auth.number} of ${holder}`;
  const facts = [["AS", `AS${auth.asn}`], ...entriesOf(auth).map((entry) => ["Prefix", showEntry(entry)]),
    ["Days", `${daysOf(auth)}, ${stateOf(auth)}`]];
  const parts = facts.flatMap(([name, fact]) => [element("dt", {}, name), element("dd", {}, fact)]);
  $("details-facts").replaceChildren(...parts);
  $("content").hidden = $("save-content").hidden = true;
  $("show-content").hidden = false;
  const isLoose = entriesOf(auth).some((entry) => !isExact(entry));
  say($("details-said"), isLoose ? LOOSE : "", isLoose ? "caution" : "");
  $("details").showModal();
}

async function showContent() {
  const auth = detailed;
  const { reply, fault } = await ask("GET", underHolder("auths", auth.number, "content"));
  if (detailed !== auth) return;
  if (fault) return say($("details-said"), fault, "fault");
  $("content-hex").value = reply.content;
  $("content").hidden = $("save-content").hidden = false;
  $("show-content").hidden = true;
  $("content-hex").focus();
}

function saveContent() {
  const octets = Uint8Array.from($("content-hex").value.match(/../g), (pair) => parseInt(pair, 16));
  save(`${holder}-${detailed.number}.der`, "application/octet-stream", octets);
}

async function exportList() {
  const name = holder;
  const { text, fault } = await ask("GET", underHolder("export"));
  if (fault) return say($("notice"), fault, "fault");
  save(`${name}.csv`, "text/csv", text);
  say($("notice"), `${name}.csv is saved.`, "done");
}

// Watched routes

let watched = [];

/** The routes of a text, none twice, and the numbers of the lines that are none. */
function readRoutes(text) {
  const routes = new Map();
  const wrong = [];
  text.split("\n").forEach((line, at) => {
    if (!line.trim()) return;
    const [prefix, origin, ...rest] = line.trim().split(/[\s,]+/);
    const place = readPrefix(prefix);
    const from = originOf(origin ?? "");
    const isOrigin = from === null || (Number.isInteger(from) && from <= 4294967295);
    if (!place || rest.length || !isOrigin) return wrong.push(at + 1);
    routes.set(`${place.text} ${showOrigin(from)}`, { place, prefix: place.text, origin: from });
  });
  return { routes: [...routes.values()], wrong };
}

const routeText = () => watched.map(({ prefix, origin }) => `${prefix} ${showOrigin(origin)}\n`).join("");

function keepRoutes() {
  const { routes, wrong } = readRoutes($("watched").value);
  if (wrong.length) {
    const places = wrong.slice(0, 10).join(", ") + (wrong.length > 10 ? " and others" : "");
    const which = `${wrong.length === 1 ? "line" : "lines"} ${places}`;
    return say($("watch-said"), `No routes were kept: not a prefix and an AS in ${which}.`, "fault");
  }
  watched = routes;
  $("watched").value = routeText();
  if (keep("routes", routeText())) return say($("watch-said"), `You watch ${count(routes.length, "route")}.`, "done");
  say($("watch-said"), "This browser keeps nothing: they last until you leave the page.", "fault");
}

/** The watched routes that a prefix covers, all of them where none is given, or null where it is no prefix. */
function watchedIn(text) {
  if (!text.trim()) return watched;
  const prefix = readPrefix(text);
  return prefix && watched.filter((route) => coveredBy([prefix])(route.place));
}

const asRoutes = (routes) => routes.map(({ prefix, origin }) => ({ prefix, origin }));

const routeRow = ({ prefix, origin, state }) => rowOf(badge(state), prefix, showOrigin(origin));

async function findRoutes() {
  const found = watchedIn($("find-prefix").value);
  $("found").hidden = true;
  if (!found) return say($("found-count"), SENTENCES.malformed[5], "fault");
  if (!found.length) return say($("found-count"), "You watch no route there.");
  if (found.length > ASKED_AT_MOST) return say($("found-count"), SENTENCES.malformed[12], "fault");
  const { reply, fault } = await question("/validity", { routes: asRoutes(found) });
  if (fault) return say($("found-count"), fault, "fault");
  const order = ["Invalid", "NotFound", "Valid"];
  const judged = found.map((route, at) => ({ ...route, state: reply.answers[at] }))
    .sort((one, other) => order.indexOf(one.state) - order.indexOf(other.state));
  const sums = order.map((state) => `${judged.filter((route) => route.state === state).length} ${state}`).join(", ");
  say($("found-count"), `${count(judged.length, "route")}: ${sums}.${cutOf(judged.length)}`);
  $("found").hidden = false;
  fill($("found"), judged.slice(0, SHOWN_AT_MOST), routeRow);
}

const MEANINGS = {
  Valid: "a VRP authorizes this route.",
  Invalid: "VRPs cover the prefix, and none of them authorizes this route.",
  NotFound: "no VRP covers the prefix.",
};

async function judge() {
  const route = { prefix: prefixIn("judge-prefix"), origin: originOf($("judge-origin").value) };
  const { reply, fault } = await question("/validity", { routes: [route] });
  if (fault) return say($("judged"), fault, "fault");
  const [state] = reply.answers;
  say($("judged"), "");
  $("judged").append(badge(state), ` ${route.prefix} from ${showOrigin(route.origin)}: ${MEANINGS[state]}`);
}

// A change: what it would do is shown before it is made

let change = null;
let plan = null;
// The day of the desk as it was last found, from the first one by the front's clock.
let deskDay = "";

const sayOfChange = (text, kind) => say($("change-said"), text, kind);

/** Opens the dialog of a change. Its `plan` says what to ask and what to send, by the fields at the moment. */
function openChange(given) {
  change = given;
  $("change-title").textContent = change.title;
  $("change-facts").textContent = change.facts ?? "";
  $("terms").hidden = !change.terms;
  for (const name of ["asn", "from", "until"]) {
    const field = $(`terms-${name}`);
    field.value = change.terms?.[name] ?? "";
    field.disabled = !change.terms || (change.terms.isFixed && name !== "until");
  }
  showEntries(change.terms ? entriesOf(change.terms) : []);
  extras = [];
  showExtras();
  $("import-fields").hidden = !change.isImport;
  $("import-file").value = "";
  $("reach").hidden = !change.reports;
  forgetReport();
  $("change").showModal();
  if (!change.terms && !change.isImport) report();
}

function forgetReport() {
  plan = null;
  $("confirm").hidden = $("report").hidden = $("look-here").hidden = true;
  $("ask-report").className = "primary";
  $("reach-given").hidden = $("reach-which").value !== "covered";
  sayOfChange("");
}

/** Fills the table of the dialog. */
function fillReport(names, rows, toRow) {
  const heads = names.map((name) => element("th", { scope: "col", role: "columnheader" }, name));
  $("report-head").replaceChildren(...heads);
  $("report").hidden = false;
  fill($("report"), rows, (item) => nameCells(toRow(item), names));
}

function offer(words, isDangerous) {
  $("confirm").textContent = words;
  $("confirm").className = isDangerous || change.isDangerous ? "primary danger" : "primary";
  $("confirm").disabled = false;
  $("confirm").hidden = false;
  $("ask-report").className = "";
  // On a small screen the fields fill the dialog.
  if ($("change").scrollHeight > $("change").clientHeight) $("change-said").scrollIntoView();
}

async function report() {
  forgetReport();
  const asked = change;
  const planned = await asked.plan();
  if (change !== asked) return;
  const made = planned && { ...withExtras(planned), change: asked, name: holder };
  plan = made;
  showExtras(made?.isTogether);
  if (made?.show) await made.show();
  else if (made) await reportRoutes(made);
}

// Further authorizations, by which a change makes no route Invalid.
let extras = [];

/**
 * The change with these, as one what-if; and what is sent for it. Creates of one prefix each are sent as an import, which
 * makes all or none. The desk has no such request for others, so these are sent one after the other.
 */
function withExtras(made) {
  if (!extras.length) return { ...made, steps: [made] };
  const created = [...extras, ...made.after];
  const isTogether = made.verb === "Create" && !made.after[0].entries;
  const steps = extras.map((terms) => ({
    request: ["POST", underHolder("auths"), terms], done: ({ done }) => `Authorization ${done} is created.`,
    find: findTerms(terms), terms,
  }));
  return {
    ...made, isTogether, after: created,
    steps: isTogether ? [importOf(created)] : [...steps, made],
    changes: [...extras.map((terms) => ({ do: "create", ...terms })), ...made.changes],
  };
}

/** The fault of a change or of a row that is numbered, with which one it is where there are further ones. */
function faultOfRow(fault, row) {
  if (!extras.length || !row) return fault;
  const terms = extras[row - 1];
  return `${terms ? `The further authorization ${describe(terms)}` : change.title}: ${fault}`;
}

/** Says which further authorizations there are, how they are sent, and what then holds if one fails. */
function showExtras(isTogether = false) {
  const verb = change.title.split(" ")[0].toLowerCase();
  const together = "They are sent as one request, so the desk makes all of them or none.";
  const apart = `These are ${extras.length + 1} changes, which are sent one after the other. If one fails, those before `
    + `it stay, and it and those after it are not made: what you came to ${verb} comes last.`;
  const items = extras.map((terms) => {
    const remove = element("button", { type: "button", textContent: "Leave out" });
    remove.ariaLabel = `Leave out ${describe(terms)}`;
    remove.addEventListener("click", () => leaveOut(terms));
    return element("li", {}, `${isTogether ? "Also" : "First"} create ${describe(terms)} `, remove);
  });
  if (items.length) items.push(element("li", {}, isTogether ? together : apart));
  $("extras").replaceChildren(...items);
}

function leaveOut(terms) {
  extras = extras.filter((other) => other !== terms);
  showExtras();
  $("ask-report").focus();
  report();
}

/** Offers to authorize the routes that become Invalid too, where the desk would take that and they stay Valid by it. */
async function offerExtras(made, { effects }) {
  const until = [...made.before, ...made.after].map((terms) => terms.until).sort().at(-1);
  const worst = effects.map((effect, at) => ({ ...effect, at }))
    .filter(({ rank, route, at }) => rank === 0 && route.origin && at < SHOWN_AT_MOST).slice(0, OFFERED_AT_MOST);
  for (const { route, at } of worst) {
    const { length: max } = readPrefix(route.prefix);
    const terms = { asn: route.origin, prefix: route.prefix, max, from: deskDay, until };
    const changes = [{ do: "create", ...terms }, ...made.changes];
    const { reply } = await question(underHolder("whatif"), { changes, routes: [route] });
    if (plan !== made) return;
    if (reply?.report[0][1] !== "Valid") continue;
    const also = element("button", { type: "button", textContent: "Authorize it too" });
    also.ariaLabel = `Authorize ${route.prefix} from ${showOrigin(route.origin)} too`;
    also.addEventListener("click", () => {
      extras.push(terms);
      $("ask-report").focus();
      report();
    });
    $("report").querySelectorAll("tbody tr")[at]?.lastChild.append(" ", also);
  }
}

/** The routes to report on, or null where the fields say none. */
function reach({ prefixes }) {
  const which = $("reach-which").value;
  if (which !== "space") return watchedIn(which === "all" ? "" : $("reach-prefix").value);
  const isCovered = coveredBy(prefixes);
  return watched.filter((route) => isCovered(route.place));
}

const ANY_TERMS = { asn: 0, prefix: "192.0.2.0/24", max: 24 };
let findingDay = null;

/** Asks which day the desk has, by whether it takes a create that ends on a day: one that the caller may make. */
async function askDay(terms) {
  const [{ prefix, max }] = entriesOf(terms);
  const path = underHolder("whatif");
  const isPast = async (until) => {
    const create = { do: "create", asn: terms.asn, prefix, max, from: "1970-01-01", until };
    const routes = [{ prefix: "0.0.0.0/0", origin: null }];
    const { rule, isClear } = await question(path, { changes: [create], routes });
    if (!isClear || rule === "grant" || rule === "scope") throw new Error("The desk did not say");
    return rule === "dates";
  };
  try {
    const found = await findDay(isPast, deskDay);
    if (found !== deskDay && shownDay === deskDay) showAsOf(found);
    deskDay = found;
  } catch {
    // What keeps the desk from saying it is the fault of a report, too. Until then it is the day of the front's clock.
  }
}

/** What a change does to routes, on each day from which it shows; or the desk's fault. */
async function askEffects(made, routes) {
  await askDay([...made.after, ...made.before][0]);
  const { moments, isCut } = momentsOf(deskDay, made.before, made.after);
  const { questions, places } = questionsOf(made, moments);
  const reports = [];
  for (const changes of questions) {
    const { reply, fault, row, rule } = await question(underHolder("whatif"), { changes, routes });
    if (fault) return { fault, row, rule };
    reports.push(reply.report);
  }
  return { effects: effectsOf(routes, deskDay, moments, places, reports), moments, isCut };
}

function sentencesOn({ effects, moments, isCut }) {
  const sentences = sentencesOf(effects, deskDay, moments);
  if (isCut) sentences.push("It begins and ends on more days than the page asks about: the last are not in this report.");
  if (moments.length > 1) sentences.push(THEN_UNKNOWN);
  return sentences.join(" ");
}

function offerChange(verb, { effects, isCut }) {
  const { number, words } = worstOf(effects, deskDay);
  const further = count(extras.length, "further authorization");
  const all = plan.isTogether ? `${verb}, with ${further}` : `Create ${further}, then ${verb.toLowerCase()}`;
  const what = extras.length ? all : verb;
  offer(isCut ? `${what} without a whole report: ${words}` : `${what}: ${words}`, number > 0 || isCut);
}

function reportRow(effect) {
  const { route, day, then } = effect;
  const when = isStill(effect) ? "" : day === deskDay ? "today" : day;
  return rowOf(badge(then, outcomeOf(effect)), route.prefix, showOrigin(route.origin), when, statesOf(effect));
}

const sayTooMany = () => sayOfChange(`${SENTENCES.malformed[12]} Report on those covered by a prefix.`, "fault");

/** Shows what becomes of the routes to report on, or else of the authorization's own. */
async function reportRoutes(made) {
  const routes = reach(made);
  if (!routes) return sayOfChange(SENTENCES.malformed[5], "fault");
  const asked = asRoutes(routes.length ? routes : made.own);
  if (asked.length > ASKED_AT_MOST) return sayTooMany();
  const found = await askEffects(made, asked);
  if (plan !== made) return;
  if (found.fault) return deny(made, found.fault, found.row, found.rule);
  const { number } = worstOf(found.effects, deskDay);
  const which = routes.length ? `${count(routes.length, "watched route")}.`
    : "You watch no route there, so the report is on the authorization's own.";
  sayOfChange(`${which} ${sentencesOn(found)}${cutOf(found.effects.length)}`, number ? "fault" : "done");
  fillReport(["What happens", "Prefix", "Origin", "From", "State"], found.effects.slice(0, SHOWN_AT_MOST), reportRow);
  offerChange(made.verb, found);
  await offerExtras(made, found);
}

/** A report or a change that was denied. Numbers that are used up do not hold an amendment back. */
function deny(made, fault, row, rule) {
  $("confirm").hidden = true;
  sayOfChange(faultOfRow(fault, row), "fault");
  if (row && made.mark) made.mark(row, fault);
  if (rule === "room" && made.isAmendment) offer("Amend without a report", true);
}

/** Whether a change is in the dialog still: when a reply comes it may be closed, or another one opened. */
const isInDialog = (made) => change === made.change && $("change").open;

/** Gives the focus to what can be done next in the dialog, where the button that had it is gone or disabled. */
function focusNext() {
  const last = document.activeElement;
  if (last !== document.body && !last.hidden && !last.disabled) return;
  $(["look-here", "confirm", "cancel"].find((id) => !$(id).hidden)).focus();
}

/** Says why a change was not made: in its dialog, or on the page where that is closed. */
function sayOfEnd(made, text) {
  if (isInDialog(made)) return sayOfChange(text, "fault");
  say(made.said ?? $("notice"), `${made.change.title}: ${text}`, "fault");
}

/** Sends what is not made yet, one after the other. */
async function confirmChange() {
  const made = plan;
  $("confirm").disabled = true;
  if (made.check && !await made.check(made)) return endStep(made);
  const words = [];
  for (const step of made.steps.filter(({ isMade }) => !isMade)) {
    const { reply, fault, row, isUnclear } = await ask(...step.request);
    if (isUnclear) return leaveStepOpen(made, step, words, fault);
    if (fault) {
      const which = step.terms ? `The further authorization ${describe(step.terms)}` : made.change.title;
      const said = made.steps.length > 1 ? `${which} is not made: ${fault}` : faultOfRow(fault, row);
      sayOfEnd(made, [...words, said].join(" "));
      if (made.mark && row && isInDialog(made)) deny(made, fault, row);
      return endStep(made);
    }
    markMade(step);
    words.push(step.done(reply));
  }
  if (isInDialog(made)) $("change").close();
  const done = words.join(" ");
  say(made.said ?? $("notice"), done, "done");
  if (holder) await listAnew(done);
  if (document.activeElement.matches("body, #auths *")) $("main").focus();
}

/** A further authorization that is made is none any more. */
function markMade(step) {
  step.isMade = true;
  extras = extras.filter((terms) => terms !== step.terms);
}

/** After a step that was not made: the change is offered again, or a new report where a step before it was made. */
async function endStep(made) {
  const isSome = made.steps.some(({ isMade }) => isMade);
  if (isInDialog(made)) {
    $("confirm").disabled = false;
    if (isSome) {
      $("confirm").hidden = true;
      $("ask-report").className = "primary";
      showExtras();
    }
    focusNext();
  }
  if (!isSome) return;
  const { reply } = await ask("GET", pathOf("holders", made.name, "auths"));
  if (reply && made.name === holder) showListed(reply.listed);
}

// An end that is not clear stays on the screen until the user has looked

// What is unclear of the change in the dialog, and all that is not looked at yet.
let open = null;
let unclear = [];

/** The tab keeps the words of these, so that they stay where the page is loaded anew. */
function keepUnclear() {
  const words = unclear.map(({ title, fault }) => ({ title, fault, caller }));
  try {
    sessionStorage.setItem("roadesk unclear", JSON.stringify(words));
  } catch {
    // Where a browser keeps nothing, they stay until the page is left.
  }
}

function forgetUnclear(left) {
  unclear = unclear.filter((other) => other !== left);
  keepUnclear();
}

function recallUnclear() {
  let kept = [];
  try {
    kept = JSON.parse(sessionStorage.getItem("roadesk unclear") ?? "[]");
  } catch {
    return;
  }
  const hint = "The page was loaded anew since, so it cannot look by itself. Look in the holder's list, if it shows it.";
  for (const { title, fault } of kept.filter((each) => each.caller === caller)) leaveOpen({ title, fault, hint });
}

/**
 * Puts an end that is not clear on the page, above all else, where it stays until the user has looked. `look` says by
 * `isMade` and `words` what was found, or by `fault` why nothing was.
 */
function leaveOpen({ title, fault, look, lookWords = "Look whether it was made", hint = "", found = () => {} }) {
  const said = element("p");
  const lookButton = element("button", { type: "button", className: "look primary" }, lookWords);
  const closeButton = element("button", { type: "button", className: "looked" }, "I have looked");
  const item = element("div", { role: "group", ariaLabel: title }, said, element("p", { className: "hint" }, hint),
    element("div", { className: "fields" }, lookButton, closeButton));
  const left = { title, fault, lookWords, look, found, said, lookButton, closeButton };
  unclear.push(left);
  keepUnclear();
  lookButton.hidden = !look;
  lookButton.addEventListener("click", () => lookAt(left));
  closeButton.addEventListener("click", () => {
    forgetUnclear(left);
    item.remove();
    $("main").focus();
  });
  $("unclear").append(item);
  say(said, `${title}: ${fault}`, "fault");
  return left;
}

/** Looks whether a change was made. Until that is known, the question stays. */
async function lookAt(left) {
  const { title, said, lookButton, closeButton } = left;
  const looked = await left.look();
  const { isMade, words, fault } = looked;
  const still = `the change may have been made, and that is still not known. ${fault}`;
  const text = `${title}: ${fault ? still : words}`;
  say(said, text, isMade ? "done" : "fault");
  if (!fault) {
    forgetUnclear(left);
    if (document.activeElement === lookButton) closeButton.focus();
    lookButton.hidden = true;
    closeButton.textContent = "Close";
  }
  left.found(looked, text);
}

/** Looks by the holder's list. */
const lookInList = (name, find) => async () => {
  const { reply, fault } = await ask("GET", pathOf("holders", name, "auths"));
  if (fault) return { fault };
  if (name === holder) showListed(reply.listed);
  const found = find(reply.listed);
  return { isMade: Boolean(found), words: found ? `it was made. ${found}`
    : "it is not in the list, so it was not made, unless the desk is still at it." };
};

/** Looks by sending it again, which changes nothing where it was made: then the desk denies it by the rule. */
const lookBySending = (request, rule, made, done) => async () => {
  const { reply, fault, rule: denied } = await ask(...request);
  if (!fault) return { isMade: true, words: `it is made now. ${done(reply)}` };
  return denied && denied === rule ? { isMade: true, words: made } : { fault };
};

const AGAIN_HINT = "If it was made, sending it again changes nothing, and shows that it was, unless somebody else changed "
  + "the same since then.";

/** What is said of the end of a task that no list shows. */
function leaveTaskOpen(title, fault, request, { rule, made, done }) {
  return leaveOpen({
    title, fault, lookWords: "Send it again", hint: AGAIN_HINT, look: lookBySending(request, rule, made, done),
  });
}

/** The same of a step of the change in the dialog, which says it too. */
function leaveStepOpen(made, step, words, fault) {
  const said = [...words, fault].join(" ");
  const { title } = made.change;
  const left = step.find ? leaveOpen({ title, fault: said, look: lookInList(made.name, step.find) })
    : leaveTaskOpen(title, said, step.request, step);
  if (!isInDialog(made)) return;
  sayOfChange(said, "fault");
  open = left;
  $("confirm").hidden = true;
  $("look-here").textContent = open.lookWords;
  $("look-here").hidden = false;
  focusNext();
  open.found = ({ isMade, fault: still }, text) => {
    if (isMade) markMade(step);
    if (plan !== made) return;
    sayOfChange(text, isMade ? "done" : "fault");
    if (still) return;
    $("look-here").hidden = true;
    const isAll = made.steps.every((each) => each.isMade);
    $("confirm").hidden = isAll;
    if (!isAll) endStep(made);
    focusNext();
  };
}

// The fields of a change

/** Puts the entries into the dialog, one row of fields for each. */
function showEntries(entries) {
  $("terms-entries").replaceChildren();
  for (const entry of entries) addEntry(entry);
  numberEntries();
}

function addEntry({ prefix = "", max = "" } = {}) {
  const isFixed = Boolean(change.terms?.isFixed);
  const prefixField = element("input", { required: true, value: prefix, disabled: isFixed });
  const maxField = element("input", { className: "number", inputMode: "numeric", value: max, placeholder: "its length" });
  const remove = element("button", { type: "button", textContent: "Remove", hidden: isFixed });
  const row = element("div", { className: "fields entry" },
    element("label", {}, element("span"), prefixField), element("label", {}, element("span"), maxField), remove,
    element("p", { className: "loose" }));
  prefixField.addEventListener("paste", (event) => pasteEntries(event, row));
  remove.addEventListener("click", () => {
    row.remove();
    numberEntries();
    forgetReport();
    $("terms-entries").querySelector("input").focus();
  });
  $("terms-entries").append(row);
  return row;
}

/** Names the fields by their place. Those of the first prefix have no number. */
function numberEntries() {
  const rows = [...$("terms-entries").children];
  rows.forEach((row, at) => {
    const number = rows.length > 1 ? ` ${at + 1}` : "";
    const [prefixName, maxName] = row.querySelectorAll("label > span");
    prefixName.textContent = `Prefix${number} `;
    maxName.textContent = `maxLength${number} `;
    const [prefixField, maxField] = row.querySelectorAll("input");
    prefixField.id = at ? `terms-prefix-${at + 1}` : "terms-prefix";
    maxField.id = at ? `terms-max-${at + 1}` : "terms-max";
    const remove = row.querySelector("button");
    remove.hidden = rows.length === 1 || Boolean(change.terms?.isFixed);
    remove.ariaLabel = `Remove prefix ${at + 1}`;
  });
  $("more-entries").hidden = Boolean(change.terms?.isFixed) || rows.length >= MOST_ENTRIES;
  markLoose();
}

/** A list of prefixes that is pasted fills a row for each. */
function pasteEntries(event, row) {
  const text = event.clipboardData?.getData("text/plain") ?? "";
  const entries = readEntries(text);
  if (entries.length < 2 && !entries[0]?.max) return;
  event.preventDefault();
  takeEntries(entries, row);
}

function takeEntries(entries, row) {
  const [first, ...others] = entries;
  const [prefixField, maxField] = row.querySelectorAll("input");
  prefixField.value = first.prefix;
  maxField.value = first.max;
  for (const entry of others) addEntry(entry);
  numberEntries();
  forgetReport();
}

const fieldsOfEntries = () => [...$("terms-entries").children].map((row) => {
  const [prefix, max] = row.querySelectorAll("input");
  return { row, prefix: prefix.value, max: max.value };
});

/** Says beside each entry that is looser than its prefix why that is worth a thought. */
function markLoose() {
  for (const { row, prefix, max } of fieldsOfEntries()) {
    const place = readPrefix(prefix);
    const isLoose = place && /^\d+$/.test(max.trim()) && Number(max) > place.length;
    const words = `Loose: it also authorizes each prefix in ${place?.text} up to /${max.trim()}. ${LOOSE}`;
    row.lastChild.textContent = isLoose ? words : "";
  }
}

function termsGiven() {
  return {
    asn: asOf($("terms-asn").value), entries: entriesGiven(fieldsOfEntries()),
    from: $("terms-from").value.trim(), until: $("terms-until").value.trim(),
  };
}

/** The terms as one text, whichever way their entries are written. */
function sameText(auth) {
  return [auth.asn, ...entriesOf(auth).map(({ prefix, max }) => `${prefix}-${max}`), daysOf(auth)].join(" ");
}

const findTerms = (terms) => (listed) => {
  const found = listed.find((auth) => sameText(auth) === sameText(terms));
  return found && `Authorization ${found.number} is there.`;
};

/** The terms of the fields, unless what is wrong with them can be said better here than by the desk's number. */
function termsToSend() {
  const given = termsGiven();
  const none = [given.from, given.until].find((day) => !isDay(day));
  const faultOfDays = none === undefined ? "" : `${none || "An empty field"}: ${SENTENCES.malformed[8]}`;
  const fault = faultOfEntries(given.entries) || faultOfDays;
  if (fault) return void sayOfChange(fault, "fault");
  return termsOf(given);
}

const daysFrom = (day) => ({ from: day, until: `${day.slice(0, 4)}-12-31` });

/**
 * Puts the desk's day into the fields of a dialog that was opened before it was found, unless they were changed or
 * reported on: what is sent is what the report was on.
 */
async function correctDays(opened, guess) {
  await findingDay;
  if (change !== opened || plan) return;
  for (const [name, day] of Object.entries(daysFrom(guess))) {
    const field = $(`terms-${name}`);
    if (field.value === day) field.value = daysFrom(deskDay)[name];
  }
}

function create() {
  openChange({
    title: `Create an authorization for ${holder}`,
    terms: { prefix: "", max: "", ...daysFrom(deskDay) },
    reports: true,
    plan() {
      const terms = termsToSend();
      return terms && {
        verb: "Create", changes: [{ do: "create", ...terms }], before: [], after: [terms],
        prefixes: prefixesOf(terms), own: ownRoutes(terms),
        request: ["POST", underHolder("auths"), terms], done: ({ done }) => `Authorization ${done} is created.`,
        find: findTerms(terms),
      };
    },
  });
  correctDays(change, deskDay);
}

/**
 * Whether the authorization is still as the dialog was filled from it. Another user's change is shown instead, and the
 * report asked for anew.
 */
async function isUnchanged(auth, made) {
  const { reply, fault } = await ask("GET", underHolder("auths", auth.number));
  if (fault) {
    sayOfEnd(made, `${fault} Nothing was sent.`);
    return false;
  }
  if (sameText(reply.shown) === sameText(auth)) return true;
  if (isInDialog(made)) $("confirm").hidden = true;
  sayOfEnd(made, `Nothing was sent: someone else changed authorization ${auth.number} meanwhile. It was ${describe(auth)}, `
    + `and is now ${describe(reply.shown)}. Close this and open it again.`);
  if (made.name !== holder) return false;
  lines = lines.map((line) => (line.auth.number === auth.number ? toLine(reply.shown) : line));
  showList();
  return false;
}

function amend(auth) {
  openChange({
    title: `Amend authorization ${auth.number} of ${holder}`,
    facts: "Each maxLength and the last day can be amended. The report is that of a withdrawal and a create.",
    terms: { ...auth, asn: `AS${auth.asn}`, isFixed: true },
    reports: true,
    plan() {
      const terms = termsToSend();
      const withdrawals = [{ do: "withdraw", number: auth.number }];
      return terms && {
        verb: "Amend", isAmendment: true, withdrawals, before: [auth], after: [terms],
        changes: [...withdrawals, { do: "create", ...terms }],
        prefixes: prefixesOf(terms), own: ownRoutes(terms), check: (made) => isUnchanged(auth, made),
        request: ["PATCH", underHolder("auths", auth.number), amendmentOf(entriesOf(terms), terms.until)],
        done: () => `Authorization ${auth.number} is amended.`,
        find: (listed) => listed.some((other) => other.number === auth.number && sameText(other) === sameText(terms))
          && `Authorization ${auth.number} is as amended.`,
      };
    },
  });
}

function withdraw(auth) {
  openChange({
    title: `Withdraw authorization ${auth.number} of ${holder}`,
    facts: describe(auth),
    reports: true, isDangerous: true,
    plan: () => ({
      verb: "Withdraw", changes: [{ do: "withdraw", number: auth.number }], before: [auth], after: [],
      withdrawals: [{ do: "withdraw", number: auth.number }],
      prefixes: prefixesOf(auth), own: ownRoutes(auth), check: (made) => isUnchanged(auth, made),
      request: ["DELETE", underHolder("auths", auth.number)],
      done: () => `Authorization ${auth.number} is withdrawn.`,
      find: (listed) => !listed.some(({ number }) => number === auth.number) && `Authorization ${auth.number} is gone.`,
    }),
  });
}

// Imports

const sameTerms = ({ asn, prefix, max, from, until }) => `${asn} ${prefix} ${max} ${from} ${until}`;

/** The rows that would make an authorization. */
function newRows(rows) {
  const present = new Set(lines.filter(({ auth }) => !auth.entries).map(({ auth }) => sameTerms(auth)));
  return rows.filter(({ terms }) => {
    const isNew = !present.has(sameTerms(terms));
    present.add(sameTerms(terms));
    return isNew;
  });
}

/** Shows the rows, those that are marked first where they come late: with the mark, and the reason in its column. */
function showRows(rows, marks = []) {
  const marked = new Map();
  for (const mark of marks) marked.set(mark.place, [...(marked.get(mark.place) ?? []), mark]);
  const late = [...marked.keys()].filter((place) => place > SHOWN_AT_MOST).slice(0, SHOWN_AT_MOST);
  const shown = [...late.map((place) => rows[place - 1]), ...rows.slice(0, SHOWN_AT_MOST)];
  let isFirst = true;
  fillReport(["Row", "AS", "Prefix", "maxLength", "First day", "Last day"], shown, ({ place, record }) => {
    const row = rowOf(`${place}`, ...record);
    const own = marked.get(place) ?? [];
    if (!own.length) return row;
    row.className = "denied";
    row.firstChild.append(element("span", { className: "why" }, `✗ ${own[0].word}`));
    for (const { column, reason } of own) {
      (row.children[column + 1] ?? row.lastChild).append(element("span", { className: "why" }, reason));
    }
    if (isFirst) requestAnimationFrame(() => row.scrollIntoView({ block: "center" }));
    isFirst = false;
    return row;
  });
}

/** What is wrong with the rows of a file: how many are faulty, and the first of them. */
function sayFaulty(faulty) {
  const [{ place, faults: [{ reason }] }] = faulty;
  const which = faulty.length === 1 ? `Row ${place} is faulty`
    : `${count(faulty.length, "row")} are faulty, first row ${place}`;
  sayOfChange(`${which}: ${reason} Nothing was sent.`, "fault");
}

/** The request that makes all of these, or none. */
function importOf(terms) {
  return {
    request: ["POST", underHolder("imports"), new Blob([writeImport(terms)])],
    done: ({ made, present }) => `${count(made, "authorization")} made`
      + `${present ? `; ${count(present, "row was", "rows were")} already authorized` : ""}.`,
    find(listed) {
      const present = new Set(listed.map(sameText));
      return terms.every((each) => present.has(sameText(each))) && "All of it is authorized.";
    },
  };
}

async function planImport() {
  const [file] = $("import-file").files;
  if (!file) return void sayOfChange("Choose a file.", "fault");
  const { rows, reason } = readImport(textOf(await file.arrayBuffer()));
  const faulty = rows.filter(({ faults }) => faults.length);
  const marks = faulty.flatMap(({ place, faults }) => faults.map((fault) => ({ ...fault, place, word: "faulty" })));
  showRows(rows, marks);
  if (reason) return void sayOfChange(`${reason} Nothing was sent.`, "fault");
  if (faulty.length) return void sayFaulty(faulty);
  const step = importOf(rows.map(({ terms }) => terms));
  if (isTooLong(step.request[2].size)) return void sayOfChange(SENTENCES.status[413], "fault");
  const made = newRows(rows);
  const mark = (place, fault) => {
    sayOfChange(`Row ${place} is denied, so the whole file is, and nothing was changed: ${fault}`, "fault");
    showRows(rows, [{ place, column: 1, reason: fault, word: "denied" }]);
  };
  return { ...step, mark, show: () => reportImport(rows, made) };
}

/** A report on at most 1000 creates, in words beside the rows. The rows that are already authorized make nothing. */
async function reportImport(records, made) {
  const rows = count(records.length, "row");
  const what = `${rows}, of which ${made.length.toLocaleString("en")} would make an authorization`;
  const cut = cutOf(records.length);
  const importing = plan;
  if (!made.length) {
    sayOfChange(`${what}.${cut}`, "done");
    return offer(`Import ${rows}`, false);
  }
  if (made.length > 1000) {
    sayOfChange(`${what}. A report takes at most 1000 changes.${cut}`);
    return offer(`Import ${rows} without a report`, true);
  }
  const routes = reach({ prefixes: made.map(({ terms }) => readPrefix(terms.prefix)).filter(Boolean) });
  if (!routes) return sayOfChange(SENTENCES.malformed[5], "fault");
  if (routes.length > ASKED_AT_MOST) return sayTooMany();
  const own = new Map(made.flatMap(({ terms }) => ownRoutes(terms)).map((route) => [JSON.stringify(route), route]));
  const asked = asRoutes(routes.length ? routes : [...own.values()]);
  const terms = made.map((row) => row.terms);
  importing.before = [];
  importing.after = terms;
  importing.changes = terms.map((each) => ({ do: "create", ...each }));
  const found = await askEffects(importing, asked);
  if (plan !== importing) return;
  const { fault, row } = found;
  if (fault) return row && row <= made.length ? importing.mark(made[row - 1].place, fault) : sayOfChange(fault, "fault");
  const { number } = worstOf(found.effects, deskDay);
  const which = routes.length ? `${count(routes.length, "watched route")}.`
    : "You watch no route there, so the report is on those of the rows.";
  sayOfChange(`${what}. ${which} ${sentencesOn(found)}${cut}`, number ? "fault" : "done");
  offerChange("Import", found);
}

function importFile() {
  openChange({
    title: `Import authorizations for ${holder}`,
    facts: "The file is taken as a whole or not at all. Rows that are already authorized make nothing.",
    isImport: true, reports: true, plan: planImport,
  });
}

// The registry

/** Shows the authorizations that end where their holder gives a prefix away, as far as the caller may see them. */
async function showEnded(name, prefix, verb) {
  const place = readPrefix(prefix);
  const ending = plan;
  const { reply, fault, rule } = await ask("GET", pathOf("holders", name, "auths"));
  if (plan !== ending) return;
  const rest = `Every authorization of ${name} that shares an address with ${prefix} ends.`;
  if (rule === "grant") {
    const why = `The desk does not show them to you, since you have no grant at ${name}: ask its manager.`;
    sayOfChange(`${rest} ${why}`, "fault");
    return offer(`${verb} without seeing what ends`, true);
  }
  if (fault || !place) return sayOfChange(fault ?? SENTENCES.malformed[5], "fault");
  const ended = reply.listed.filter((auth) => prefixesOf(auth).some((own) => overlap(own, place)));
  sayOfChange(`${rest} Of those that you may see there: ${ended.length || "none"}.`, ended.length ? "fault" : "done");
  if (ended.length) {
    fillReport(["Number", "Authorization that ends"], ended, (auth) => rowOf(`${auth.number}`, `✗ ${describe(auth)}`));
  }
  const sum = ended.length ? count(ended.length, "authorization ends", "authorizations end")
    : "no authorization that you may see ends";
  offer(`${verb}: ${sum}`, ended.length > 0);
}

function openMove(form, verb, name, prefix, path, body) {
  const said = statusOf(form);
  const done = () => `${verb} ${prefix}: done.`;
  say(said, "");
  if (!isName(name)) return say(said, SENTENCES.malformed[3], "fault");
  openChange({
    title: `${verb} ${prefix}`,
    facts: body.taker === undefined ? `From ${name}.` : `From ${name} to ${body.taker}.`, isDangerous: true,
    plan: () => ({
      request: ["POST", path, body], show: () => showEnded(name, prefix, verb), done, said,
      rule: "held", made: `${name} does not hold all of ${prefix} now: it was made, unless another change took it.`,
    }),
  });
}

/** The tasks of the forms: what is sent, what is said when it is done, and what a second sending is denied by. */
const HOLDER_TASKS = {
  register: (name) => ({
    title: `Register ${name}`, request: ["PUT", pathOf("holders", name)],
    done: () => `The holder ${name} is registered.`,
    rule: "fresh", made: `${name} is registered: it was made, by you or by another operator.`,
  }),
  delegate: (name, prefix = prefixIn("delegate-prefix")) => ({
    title: `Delegate ${prefix} to ${name}`, request: ["POST", pathOf("holders", name, "delegations"), { prefix }],
    done: () => `${prefix} is delegated to ${name}.`,
    rule: "free", made: `${prefix} is held, at least in part: it was made, unless somebody else got it.`,
  }),
  grant: (name) => ({
    title: `Grant to ${nameIn("grant-name")} at ${name}`,
    request: ["POST", pathOf("holders", name, "grants"), {
      name: nameIn("grant-name"), role: $("grant-role").value, until: $("grant-until").value.trim(),
      scope: nameIn("grant-scope") === "all" ? "all" : prefixIn("grant-scope"),
    }],
    done: ({ done }) => `Grant ${done} at ${name} is made. Note its number: it is revoked by it.`,
  }),
  revoke: (name, number = nameIn("revoke-number")) => ({
    title: `Revoke grant ${number} at ${name}`, request: ["DELETE", pathOf("holders", name, "grants", number)],
    done: () => `Grant ${number} at ${name} is revoked.`,
    rule: "number", made: `there is no active grant ${number} at ${name}: it is revoked.`,
  }),
};

const GRANT_HINT = "The desk lists no grants, and one that is sent twice is made twice. The front's log has how this one "
  + "was answered. Or make it again: numbers rise by one, so if one was skipped, it is this one's, and you can revoke it.";

async function doHolderTask(name) {
  const said = statusOf($(name));
  const holderName = nameIn(`${name}-holder`);
  if (!isName(holderName)) return say(said, SENTENCES.malformed[3], "fault");
  const task = HOLDER_TASKS[name](holderName);
  const { reply, fault, isUnclear } = await ask(...task.request);
  say(said, fault ?? task.done(reply), fault ? "fault" : "done");
  if (!isUnclear) return;
  if (task.rule) leaveTaskOpen(task.title, fault, task.request, task);
  else leaveOpen({ title: task.title, fault, hint: GRANT_HINT });
}

/** The name that a file has in a set: that of the file, in the form of a holder's. */
function slurmName({ name }) {
  return name.toLowerCase().replace(/\.json$/, "").replace(/[^a-z0-9-]+/g, "-").replace(/^-+/, "").slice(0, 32);
}

/** What was put in force last from this browser: the desk does not tell what is. */
function showSlurm() {
  const last = recall("slurm");
  $("slurm-last").textContent = last ? `Last put in force from this browser: ${last}.`
    : "From this browser none was put in force yet.";
}

async function putSlurm() {
  const said = statusOf($("slurm"));
  const files = [...$("slurm-file").files];
  const names = files.map(slurmName);
  const twice = names.find((name, at) => !isName(name) || names.indexOf(name) < at);
  if (files.length > 1 && twice !== undefined) {
    return say(said, `Each file needs a name of its own, of a to z, 0 to 9 and -: ${twice || "one"} is not.`, "fault");
  }
  const texts = await Promise.all(files.map((file) => file.text()));
  for (const [at, text] of texts.entries()) {
    try {
      JSON.parse(text);
    } catch {
      if (files.length > 1) return say(said, `${files[at].name}: ${SENTENCES.slurm[1]} Nothing was sent.`, "fault");
    }
  }
  const set = texts.map((text, at) => `{"name":"${names[at]}","file":${text}}`);
  const request = files.length > 1 ? ["PUT", "/slurms", new Blob([`{"files":[${set.join()}]}`])]
    : ["PUT", "/slurm", new Blob([await files[0].arrayBuffer()])];
  const which = files.map(({ name }) => name).join(", ");
  const done = () => {
    keep("slurm", `${which}, at ${new Date().toISOString().slice(0, 16).replace("T", " ")} UTC`);
    showSlurm();
    return `The exceptions of ${which} are in force, and no others.`;
  };
  const { fault, isUnclear } = await ask(...request);
  say(said, fault ?? done(), fault ? "fault" : "done");
  if (isUnclear) leaveTaskOpen(`Exceptions of ${which}`, fault, request, { done });
}

// The VRPs of the day

// The lines of the last reply, or null where none came.
let payloads = null;
let searching = {};

const payloadRow = (line) => rowOf(...line.split(","));

const payloadFilterOf = (word) =>
  testOf(word, (line) => line.toLowerCase(), (line) => [readPrefix(line.split(",")[1])]);

/** The lines that pass all tests, some in each frame, or null where another search began meanwhile. */
async function searchPayloads(tests) {
  if (!tests.length) return payloads;
  const [search, all] = [searching, payloads];
  const found = [];
  for (let at = 0; at < all.length; at += SEARCHED_IN_A_FRAME) {
    if (at) await new Promise(requestAnimationFrame);
    if (searching !== search) return null;
    found.push(...all.slice(at, at + SEARCHED_IN_A_FRAME).filter((line) => tests.every((test) => test(line))));
  }
  return found;
}

async function showPayloads() {
  searching = {};
  if (!payloads) return;
  const words = $("payload-filter").value.toLowerCase().split(/\s+/).filter(Boolean);
  const found = await searchPayloads(words.map(payloadFilterOf));
  if (!found) return;
  const cut = cutOf(found.length);
  const all = count(payloads.length, "VRP");
  const sum = words.length ? `${found.length.toLocaleString("en")} of ${all}` : all;
  say($("payload-count"), cut ? `${sum}.${cut}` : sum);
  fill($("payload-rows"), found.slice(0, SHOWN_AT_MOST), payloadRow);
}

async function askPayloads() {
  const { text, fault } = await ask("GET", "/payloads");
  payloads = fault ? null : text.trim().split("\n").slice(1);
  if (fault) {
    say($("payload-count"), fault, "fault");
    fill($("payload-rows"), [], payloadRow);
  }
  showPayloads();
}

// The page

const PAGES = [...document.querySelectorAll(".page")];

/** What the address names: `#/alpha/routes`, or without a holder `#/routes`. */
function readAddress() {
  const parts = location.hash.replace(/^#\/?/, "").split("/").filter(Boolean);
  const page = PAGES.find(({ id }) => id === parts.at(-1));
  return { page, name: parts.length === 2 && isName(parts[0]) ? parts[0] : "" };
}

/** The address of a page, of the holder that is open, or of one that is asked for. */
const addressOf = (page) => (opening || holder ? `#/${opening || holder}/${page.id}` : `#/${page.id}`);

const shownPage = () => PAGES.find(({ hidden }) => !hidden);

/** Names the page and the holder in the title and the links, and in the address. */
function namePage() {
  const page = shownPage();
  for (const link of document.querySelectorAll("nav a")) {
    const linked = PAGES.find(({ id }) => link.hash.endsWith(`/${id}`));
    link.href = addressOf(linked);
    link.ariaCurrent = linked === page ? "page" : null;
  }
  document.title = `${holder ? `${holder}: ` : ""}${page.dataset.title} – roadesk`;
}

async function showPage() {
  const { page: wanted, name } = readAddress();
  const page = wanted ?? shownPage();
  if (page !== shownPage() || (holder && name && name !== opening)) say($("notice"), "");
  for (const other of PAGES) other.hidden = other !== page;
  namePage();
  if (page.id === "payloads") askPayloads();
  if (!name || name === opening) return;
  $("holder").value = name;
  await openHolder(name);
}

/** The page of a holder gets an address of its own, so that Back leads to the one before. */
function goToHolder() {
  const address = addressOf(shownPage());
  if (location.hash !== address) history.pushState(null, "", address);
  namePage();
  const last = [holder, ...lastHolders().filter((name) => name !== holder)].slice(0, KEPT_HOLDERS);
  keep("holders", last.join("\n"));
  showLastHolders();
  $("holder").value = holder;
}

const lastHolders = () => recall("holders").split("\n").filter(isName);

function showLastHolders() {
  $("last-holders").replaceChildren(...lastHolders().map((name) => element("option", { value: name })));
}

const FORMS = {
  open: () => { say($("notice"), ""); return openHolder(nameIn("holder")); },
  judge, watch: keepRoutes, find: findRoutes, "change-form": report, slurm: putSlurm,
  reclaim: () => openMove($("reclaim"), "Reclaim", nameIn("reclaim-holder"), prefixIn("reclaim-prefix"),
    pathOf("holders", nameIn("reclaim-holder"), "reclaims"), { prefix: prefixIn("reclaim-prefix") }),
  transfer: () => openMove($("transfer"), "Transfer", nameIn("transfer-giver"), prefixIn("transfer-prefix"),
    "/transfers",
    { prefix: prefixIn("transfer-prefix"), giver: nameIn("transfer-giver"), taker: nameIn("transfer-taker") }),
};
for (const task of Object.keys(HOLDER_TASKS)) FORMS[task] = () => doHolderTask(task);

const CLICKS = {
  "look-here": () => lookAt(open),
  "add-entry": () => {
    addEntry().querySelector("input").focus();
    numberEntries();
    forgetReport();
  },
  create, import: importFile, export: exportList, confirm: confirmChange, "payloads-ask": askPayloads,
  "show-content": showContent, "save-content": saveContent,
  cancel: () => $("change").close(),
  "details-close": () => $("details").close(),
  amend: () => { $("details").close(); amend(detailed); },
  withdraw: () => { $("details").close(); withdraw(detailed); },
};

// A report or a holder that is asked for anew takes the place of the one before.
const ASKED_ANEW = ["change-form", "open"];

/** Does the task of a form once at a time, unless it is one of these. */
async function submit(event) {
  event.preventDefault();
  const form = event.target;
  if (form.ariaBusy === "true" && !ASKED_ANEW.includes(form.id)) return;
  form.ariaBusy = "true";
  try {
    await FORMS[form.id]();
  } finally {
    form.ariaBusy = "false";
  }
}

/** The user's name as the front knows it, and the day by its clock, in UTC as that of the desk. */
async function meet() {
  let now = new Date();
  try {
    const { headers } = await fetch(location.origin + location.pathname, { method: "HEAD", cache: "no-store" });
    caller = headers.get("Desk-Caller") ?? "";
    now = new Date(headers.get("Date") ?? now);
  } catch {
    say($("notice"), SENTENCES.status.question, "fault");
  }
  $("caller").textContent = caller || "unknown";
  deskDay = now.toISOString().slice(0, 10);
  $("day").value = shownDay = deskDay;
  $("grant-until").value = `${deskDay.slice(0, 4)}-12-31`;
  watched = readRoutes(recall("routes")).routes;
  $("watched").value = routeText();
  showLastHolders();
  showSlurm();
  recallUnclear();
  const [last] = lastHolders();
  if (last && !readAddress().name) {
    $("holder").value = last;
    await openHolder(last);
  }
}

function listen() {
  for (const id of Object.keys(FORMS)) $(id).addEventListener("submit", submit);
  for (const [id, task] of Object.entries(CLICKS)) $(id).addEventListener("click", () => task());
  $("filter").addEventListener("input", showListSoon);
  $("filter-state").addEventListener("change", showList);
  $("payload-filter").addEventListener("input", inNextFrame(showPayloads));
  $("change-form").addEventListener("input", () => {
    forgetReport();
    markLoose();
  });
  $("import-file").addEventListener("change", () => $("import-file").files.length && report());
  $("auths").addEventListener("click", ({ target }) => {
    const { auth } = lines.find((line) => String(line.auth.number) === target.dataset.number) ?? {};
    if (auth) showDetails(auth);
  });
  $("day").addEventListener("change", () => showAsOf($("day").value));
  document.addEventListener("click", (event) => {
    if (!$("session").contains(event.target)) $("session").open = false;
    // The second click of a double one may come after the answer to the first, and would make a grant twice.
    if (event.detail > 1 && event.target.type === "submit") event.preventDefault();
  });
  document.querySelector(".skip").addEventListener("click", (event) => {
    // Not by the address, which names the page and the holder.
    event.preventDefault();
    $("main").focus();
  });
  window.addEventListener("popstate", showPage);
}

makeSorts();
listen();
meet().then(showPage);
