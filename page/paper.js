// What is printed on paper: the results of a meeting, a draft of its minutes, and a person's own note.

import { numberWords, percentWords, resultBar, momentWords, dayWords, clearDays, sessionsOf, sessionOf, stageOf } from "./words.js";
import { el, own, button, section, showLarge, terms, stageWords } from "./forms.js";
import { recordedLines } from "./ballots.js";

const meetingName = ({ kind, meeting }) => `${kind === "annual" ? "annual general" : "general"} meeting ${meeting}`;

const blank = (words) => el("p", { class: "blank" }, words);

const company = (settings) => settings.company === undefined ? blank("Company") : el("p", { class: "company" }, own(settings.company));

const sessionRows = (notice) => sessionsOf(notice).map(({ number, appointed, opened }) =>
  [`Session ${number}`, `${momentWords(appointed)}; ${opened === null ? "not opened" : `opened on ${momentWords(opened)}`}`]);

const paper = (title, settings, ...children) => el("article", { class: "paper" }, company(settings), el("h2", {}, title), ...children);

// A resolution with what came of it. `undecided` stands where there was no poll.
function outcome(notice, resolution, undecided) {
  const { number, text, kind, poll } = resolution, stage = stageOf(resolution);
  const made = [el("h3", {}, `${number}. `, own(text))], named = `${kind === "special" ? "Special" : "Ordinary"} resolution.`;
  if (stage === "no poll") return el("section", {}, ...made, el("p", {}, `${named} No poll was taken.`), undecided);
  if (stage !== "declared") return el("section", {}, ...made, el("p", {}, `${named} ${stageWords(resolution, stage)}`));
  const { result } = poll, [from, to] = [poll.started, poll.closed].map((moment) => dayWords(moment.slice(0, 10)));
  const { votes, unvoted } = resultBar(kind, result);
  const row = (name, shares, whole) => el("tr", {}, el("th", { scope: "row" }, name), el("td", {}, numberWords(shares)),
    el("td", {}, whole === null ? "" : percentWords(shares, whole)), el("td", {}, percentWords(shares, result.eligible)));
  return el("section", {}, ...made,
    el("p", {}, `${named} `, el("strong", {}, result.carried ? "Carried" : "Lost"), ` on a poll in session ${sessionOf(notice, poll).number}, ` +
      `${poll.chair ? "ordered by the chair" : "on a demand"}, taken on ${from}${from === to ? "" : ` to ${to}`}.`),
    el("table", {}, el("thead", {}, el("tr", {}, ...["", "Shares", "Of the votes", "Of all shares"].map((name) => el("th", { scope: "col" }, name)))),
      el("tbody", {}, row("For", result.for, votes), row("Against", result.against, votes), row("Withheld (no vote in law)", result.withheld, null),
        row("Not voted", unvoted, null), row("All shares", result.eligible, null))));
}

export function resultsSheet(notice, settings) {
  return paper(`Results of the ${meetingName(notice)}`, settings, terms(sessionRows(notice)), ...notice.resolutions.map((each) => outcome(notice, each, null)),
    el("p", { class: "help" }, "Percentages are cut after two decimals. A withheld vote is no vote in law, and is not counted among the votes."));
}

export function minutesDraft(notice, settings) {
  return paper(`Draft: minutes of the ${meetingName(notice)}`, settings,
    el("p", { class: "help" }, "To be completed by hand. What the desk has is filled in."),
    terms([...sessionRows(notice), ["Place", settings.place === undefined ? blank("") : own(settings.place)], ["In the chair", blank("")],
      ["Present, by themselves, by proxy or by representative", [blank(""), blank("")]], ["In attendance", blank("")]]),
    el("p", {}, `Notice was taken as received on ${dayWords(notice.given)}, ${clearDays(notice.given, notice.appointed)} clear days before the ` +
      `meeting (sections 307 and 360). The register was taken as of ${momentWords(notice.record)}. A quorum was marked as present at each opening (section 318).`),
    ...notice.resolutions.map((each) => outcome(notice, each, blank("Decided on a show of hands, withdrawn, or not put"))),
    blank("Other business"), blank("The meeting ended at"), blank("Signed, as chair of the meeting"), blank("Date"),
    el("p", { class: "help" }, "Section 355: the company keeps the minutes of its general meetings for at least ten years. Section 356: signed " +
      "by the chair of the meeting, or of the next one, they are evidence of what was done. Section 248 is about the minutes of directors' " +
      "meetings, which are kept apart. A resolution of an adjourned meeting is passed on the day on which it was in fact passed (section 332)."));
}

// What a party did from this page, and what the desk has of it now.
export function ownNote(party) {
  const { notice, mine, settings, notes, self } = party;
  const voted = notice.resolutions.map((resolution) => [resolution, recordedLines(party, resolution)]).filter(([, lines]) => lines.length > 0);
  const list = (lines, none) => lines.length === 0 ? el("p", {}, none) : el("ul", {}, ...lines.map((line) => el("li", {}, line)));
  return paper(`Own note${self === "" ? "" : ` of ${self}`}: ${meetingName(notice)}`, settings,
    el("p", {}, `What the desk had on ${momentWords(party.moment())}.`),
    el("h3", {}, "Done from this page"), list(notes.map(([moment, words]) => `${momentWords(moment)}: ${words}`), "Nothing since you entered."),
    el("h3", {}, "Proxies appointed"), list(mine.given.map((item) => party.givenWords(item)), "None."),
    el("h3", {}, "Votes recorded"), ...(voted.length === 0 ? [el("p", {}, "None.")]
      : voted.flatMap(([{ number, text }, lines]) => [el("p", {}, `Resolution ${number}: `, own(text)), list(lines, "")])));
}

// The section from which these are shown. `sheets` has [id, label, build] of each.
export const papers = (sheets) => section("papers", "On paper", sheets.map(([id]) => id), () => [el("p", { class: "buttons" },
  ...sheets.map(([id, label, build]) => button(label, () => showLarge(label, build), { id })))]);
