// Pieces of the page. All text goes in as text: no string is ever read as HTML.

import { numberWords, resultBar, momentWords, dayWords, cutoffWords, sessionsOf } from "./words.js";

const SVG = "http://www.w3.org/2000/svg";
const at = (id) => document.getElementById(id);

// An element with attributes, handlers (`onclick` and the like) and children. A child that is null is left out.
export function el(tag, attributes = {}, ...children) {
  const made = document.createElement(tag);
  for (const [name, value] of Object.entries(attributes)) {
    if (value === null || value === false) continue;
    if (name.startsWith("on")) made.addEventListener(name.slice(2), value);
    else made.setAttribute(name, value === true ? "" : value);
  }
  made.append(...children.flat().filter((child) => child !== null));
  return made;
}

// What a person wrote, in whatever direction it is read.
export const own = (words) => el("bdi", {}, words);

function svg(tag, attributes, ...children) {
  const made = document.createElementNS(SVG, tag);
  for (const [name, value] of Object.entries(attributes)) made.setAttribute(name, value);
  made.append(...children);
  return made;
}

// A labelled field. `help` is read out with it.
export function field(id, label, input, help = null) {
  input.id = id;
  if (help !== null) input.setAttribute("aria-describedby", `${id}-help`);
  return el("p", { class: "field" }, el("label", { for: id }, label), input,
    help === null ? null : el("span", { id: `${id}-help`, class: "help" }, help));
}

export const text = (value = "", more = {}) =>
  el("input", { type: "text", autocomplete: "off", spellcheck: "false", value, ...more });

export const nameText = (value = "") => text(value, { maxlength: "16", autocapitalize: "characters" });

export const numberText = (value = "") => text(value, { inputmode: "numeric", maxlength: "17" });

export const momentInput = () => el("input", { type: "datetime-local", step: "1" });

export function select(options, chosen) {
  return el("select", {}, ...options.map(([value, words]) => el("option", { value, selected: value === chosen }, words)));
}

// A group of radio buttons. The chosen value is that of `value(group)`.
export function radios(name, legend, options, chosen) {
  return el("fieldset", { class: "radios" }, el("legend", {}, legend),
    ...options.map(([value, words]) => el("span", { class: "tick" },
      el("input", { type: "radio", name, value, id: `${name}-${value}`, checked: value === chosen }),
      el("label", { for: `${name}-${value}` }, words))));
}

export const value = (group) => group.querySelector("input:checked")?.value ?? null;

export const button = (words, onclick, more = {}) => el("button", { type: "button", onclick, ...more }, words);

// A form that calls `send` and leaves the page where it is.
export function form(id, send, ...children) {
  return el("form", { id, autocomplete: "off", novalidate: true, onsubmit: (event) => { event.preventDefault(); send(); } }, ...children);
}

// What each item that is shown was made from.
const signs = new WeakMap();

// Shows items {id, sign, build, parts} in a place, in their order, each by the element that `build` makes. One whose `sign` is as it
// was is left alone, with what was typed into it. `parts` are items in turn, in that element's part of the class "parts". Where the
// focus was in an element that is made anew or moved, it goes to the same control, or else to the item's heading.
export function showItems(view, items) {
  const focused = view.contains(document.activeElement) ? document.activeElement : null;
  const item = focused && [...view.children].find((child) => child.contains(focused));
  const wanted = new Set(items.map(({ id }) => id));
  for (const child of [...view.children]) if (!wanted.has(child.id)) child.remove();
  const held = new Map([...view.children].map((child) => [child.id, child]));
  let place = view.firstElementChild;
  for (const { id, sign, build, parts } of items) {
    const mark = JSON.stringify(sign);
    let shown = held.get(id);
    if (shown === undefined || signs.get(shown) !== mark) {
      const made = build();
      made.id = id;
      signs.set(made, mark);
      shown?.replaceWith(made);
      if (place === shown) place = made;
      shown = made;
    }
    if (place === shown) place = place.nextElementSibling;
    else view.insertBefore(shown, place);
    if (parts) showItems(shown.querySelector(".parts"), parts);
  }
  if (focused !== null && !view.contains(document.activeElement)) {
    const heading = at(item?.id)?.querySelector("[tabindex]");
    (focused.isConnected ? focused : focused.id && at(focused.id) || heading)?.focus();
  }
}

// A section with a heading of the page's words and then, where there are some, words that a person wrote.
function framed(id, [title, words], children) {
  const heading = el("h2", { id: `${id}-title`, tabindex: "-1" }, title, words === undefined ? null : own(words));
  return el("section", { "aria-labelledby": heading.id }, heading, ...children);
}

export const section = (id, title, sign, build) => ({ id, sign: [title, sign], build: () => framed(id, [title].flat(), build()) });

// A section whose parts are made anew one by one.
export const group = (id, title, parts) => ({ id, sign: title, build: () => framed(id, [title].flat(), [el("div", { class: "parts" })]), parts });

export const part = (id, sign, build) => ({ id, sign, build: () => el("div", {}, ...build()) });

// Says a reply where screen readers hear it. `mood` is "good", "bad", "wait" or "unknown".
export function say(words, mood, ...more) {
  const reply = at("reply");
  reply.className = mood;
  reply.replaceChildren(words === "" ? "" : el("p", {}, words), ...more);
}

// The outcome of a poll: the word, the numbers, and a bar with a line at the majority. `kind` is null where it is not known.
export function resultFigure(number, title, kind, result) {
  const bar = resultBar(kind, result);
  const votes = [["For", result.for], ["Against", result.against]];
  const rest = [["Withheld", result.withheld], ["Not voted", bar.unvoted], ["All shares", result.eligible]];
  const row = ([name, shares]) => el("tr", { class: name.toLowerCase() }, el("th", { scope: "row" }, name), el("td", {}, numberWords(shares)));
  const picture = svg("svg", { class: "bar", viewBox: "0 0 1000 120", preserveAspectRatio: "none", "aria-hidden": "true" },
    svg("rect", { class: "against", x: 0, y: 20, width: bar.votes === 0 ? 0 : 1000, height: 80 }),
    svg("rect", { class: "for", x: 0, y: 20, width: bar.yes, height: 80 }),
    svg("rect", { class: "frame", x: 0, y: 20, width: 1000, height: 80 }),
    ...(kind === null ? [] : ["halo", "line"].map((name) => svg("line", { class: name, x1: bar.line, x2: bar.line, y1: 0, y2: 120 }))));
  return el("figure", { class: `result ${result.carried ? "carried" : "lost"}`, "data-number": String(number) },
    el("figcaption", {}, `Resolution ${number}: `, own(title)),
    el("p", { class: "outcome" }, result.carried ? "Carried" : "Lost"),
    el("table", { class: "votes" }, el("tbody", {}, ...votes.map(row))),
    picture,
    kind === null ? null : el("p", { class: "need" }, `${bar.need} The dashed line is there.`),
    el("table", { class: "rest" }, el("tbody", {}, ...rest.map(row))));
}

// Shows over the whole window what `build` makes: a result for a room, or a sheet. It is printed from a second copy, since a dialog
// that is longer than a page is cut off on paper.
export function showLarge(label, build) {
  const large = at("large"), printed = at("printed");
  large.setAttribute("aria-label", label);
  large.replaceChildren(build(), el("p", {}, button("Print", () => window.print(), { id: "large-print" }),
    button("Back to the page", () => large.close(), { id: "large-back", autofocus: true })));
  printed.replaceChildren(build());
  large.onclose = () => printed.replaceChildren();
  large.showModal();
  large.scrollTop = 0;
}

// Asks once before a step that can not be taken back. `lines` say what can not be undone.
export function sure(title, lines, yes, go) {
  const asked = at("sure");
  if (at("reply").className === "bad") say("", "good");
  asked.replaceChildren(el("h2", { id: "sure-title" }, title), ...lines.map((line) => el("p", {}, line)),
    el("p", { class: "buttons" }, button(yes, () => { asked.close(); go(); }, { id: "sure-yes" }),
      button("No, go back", () => asked.close(), { id: "sure-no", autofocus: true })));
  asked.showModal();
}

// A list of which the first twenty are shown until all are asked for, with a field that finds items by their words. `state` is a map in
// which what was typed is kept by the list's name.
const SHOWN = 20;
export function longList(state, id, items, words, row) {
  if (!state.has(id)) state.set(id, { sought: "", all: false });
  const now = state.get(id), list = el("ul", { class: "list" }), count = el("p", { class: "help" });
  const sought = text(now.sought, { type: "search" });
  const more = button(`Show all ${numberWords(items.length)}`, () => { now.all = true; draw(); }, { id: `${id}-more` });
  const draw = () => {
    const part = now.sought.trim().toUpperCase();
    const found = part === "" || items.length <= SHOWN ? items : items.filter((item) => words(item).toUpperCase().includes(part));
    const shown = now.all ? found : found.slice(0, SHOWN);
    list.replaceChildren(...shown.map(row));
    count.textContent = `${numberWords(shown.length)} shown, ${numberWords(found.length)} found, of ${numberWords(items.length)}.`;
    more.hidden = shown.length === found.length;
  };
  sought.addEventListener("input", () => { now.sought = sought.value; draw(); });
  draw();
  return items.length <= SHOWN ? [list] : [field(`${id}-sought`, "Find", sought), count, list, more];
}

export function resultWithButton(number, title, kind, result) {
  const figure = () => resultFigure(number, title, kind, result);
  return el("div", {}, figure(), button(`Show the result of resolution ${number} to the room`,
    () => showLarge(`Result of resolution ${number}`, figure), { class: "noprint", id: `room-${number}` }));
}

export const kindWords = (kind) => kind === "special" ? "Special resolution: three quarters of the votes are needed."
  : "Ordinary resolution: more than half of the votes are needed.";

export const titleOf = ({ number, text }) => [`Resolution ${number}: `, text];

// Terms and what they stand for. What a person wrote comes as an element of `own`.
export const terms = (rows) => el("dl", {}, ...rows.flatMap(([term, words]) => [el("dt", {}, term), el("dd", {}, words)]));

// What the notice says of a meeting, and the secretary's settings, as a list of terms. The page's timer keeps `left` to how long the
// cutoff still is.
export function noticeList(notice, settings, now) {
  const name = notice.kind === "annual" ? "Annual general meeting" : "General meeting";
  const session = ({ appointed, cutoff, opened }, when) => [[when, momentWords(appointed)],
    ["Last moment for proxies", [momentWords(cutoff) + ". ", el("span", { class: "left", "data-until": cutoff }, cutoffWords(cutoff, now))]],
    ["Opened", opened === null ? "Not yet" : momentWords(opened)]];
  const [first, ...later] = sessionsOf(notice);
  const [when, proxies, opened] = session(first, "When");
  return terms([["Meeting", [`${name} of a ${notice.company} company, called ${notice.meeting}`]],
    ...settingRows(settings), when, ["Notice taken as received", dayWords(notice.given)], proxies,
    ["Register taken as of", `${momentWords(notice.record)}. ${notice.register ? "It is loaded." : "It is not loaded yet."}`], opened,
    ...later.flatMap((each) => session(each, `Adjourned to session ${each.number}`))]);
}

const settingRows = (settings) => [["Company", "company"], ["Place (section 311)", "place"], ["Chair of the meeting", "chair"], ["Questions", "contact"],
  ["Full texts of the resolutions", "texts"]].filter(([, name]) => name in settings).map(([term, name]) => [term, own(settings[name])]);

export function stageWords(resolution, stage) {
  const poll = resolution.poll;
  switch (stage) {
    case "no poll": return "No poll is ordered.";
    case "ordered": return `A poll is ordered, to be taken on ${momentWords(poll.take)}.` +
      (poll.late ? ` Proxies for it count until ${momentWords(poll.cutoff)}.` : "");
    case "open": return "The voting is open.";
    case "closed": return "The voting is closed. The result is not declared yet.";
    default: return `The result is declared.`;
  }
}

// How far a resolution has come, and its result where it is declared.
export function stageItems(resolution, stage) {
  const { number, text, kind, poll } = resolution;
  return [el("p", {}, kindWords(kind)), el("p", { class: `stage ${stage.replace(" ", "-")}` }, stageWords(resolution, stage)),
    stage === "declared" ? resultWithButton(number, text, kind, poll.result) : null];
}
