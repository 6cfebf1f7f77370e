// Where a party votes on a resolution whose poll is open, and what it has recorded.

import { WAYS, MOST_VOTES, blocksOf, castsOf, planAll, recorder, recordedWords, countRuns, isFree, sharesWords, numberWords, several,
  readNumber } from "./words.js";
import { isName } from "./desk.js";
import { el, field, numberText, radios, value, button, form, part, sure, longList } from "./forms.js";

export const WORDS = { for: "For", against: "Against", withheld: "Withhold the vote (no vote in law)", free: "As the proxy thinks fit" };

const blockId = (block) => block.as === "member" ? block.part ?? "own" : [block.as, block.member, ...(isFree(block) ? [] : [block.way])].join("-");

function blockWords(block) {
  const shares = sharesWords(countRuns(block.runs));
  if (block.as === "member" && block.part === "kept") return `Your own ${shares} that no proxy has`;
  if (block.as === "member") return block.part === "all" ? `All your own ${shares}: your vote comes before your proxy's` : `Your own ${shares}`;
  if (block.as === "rep") return `${shares} of ${block.member}, as its representative`;
  return `${shares} of ${block.member}, as proxy` + (isFree(block) ? "" : `, instructed: ${WORDS[block.way].toLowerCase()}`);
}

// Up to so many blocks have a ballot each. More are a list, from which one is taken at a time.
const FEW = 8;

export function voteItems(party, resolution, blocks) {
  const { number } = resolution, casts = party.mine.casts.filter((cast) => cast.resolution === number);
  if (blocks.length === 0) return [part(`none-${number}`, null, () => [el("p", {}, "You have no shares to vote on here.")])];
  const told = recorder(casts, number), few = blocks.length <= FEW, free = blocks.filter(isOfAll);
  const shown = few ? blocks : blocks.filter((block) => blockId(block) === party.lists.get(`taken-${number}`));
  return [
    ...(free.length < 2 ? [] : [{ id: `all-${number}`, sign: [free.length, countAll(free)], build: () => allForm(party, number, free) }]),
    ...(blocks.every(isFree) ? [] : [part(`bound-${number}`, null, () => [asInstructed(party, number)])]),
    ...shown.flatMap((block) => {
      const id = `vote-${number}-${blockId(block)}`, words = recordedWords(told(block));
      return [{ id, sign: block, build: () => ballot(party, number, block, id) },
        part(`${id}-told`, words, () => [el("p", { class: "recorded" }, `Recorded: ${words}.`)])];
    }),
    ...(few ? [] : [listItem(party, number, blocks, casts, told)]),
    part(`last-${number}`, null, () => [el("p", { class: "help" }, "You can vote again until the voting is closed. The last vote on a share counts.")])];
}

function asInstructed(party, number) {
  return button("Vote as instructed, on all shares with an instruction", () => party.act("instructed", { resolution: number },
    () => `Your vote as instructed on resolution ${number} is recorded.`), { id: `instructed-${number}` });
}

const countAll = (blocks) => blocks.reduce((sum, { runs }) => sum + countRuns(runs), 0);

// Own shares that a proxy has are voted one by one, if at all.
const isOfAll = (block) => isFree(block) && block.part !== "all";

function listItem(party, number, blocks, casts, told) {
  const words = (block) => `${blockWords(block)}. Recorded: ${recordedWords(told(block))}. `;
  const take = (block) => {
    party.lists.set(`taken-${number}`, blockId(block));
    party.show();
    document.getElementById(`vote-${number}-${blockId(block)}-title`).focus();
  };
  const row = (block) => el("li", {}, words(block),
    button("Vote on these", () => take(block), { id: `take-${number}-${blockId(block)}`, "aria-label": `Vote on these: ${blockWords(block)}` }));
  return part(`blocks-${number}`, [blocks, casts], () => [el("h3", { tabindex: "-1" }, "All that you may vote on"),
    ...longList(party.lists, `list-${number}`, blocks, words, row)]);
}

// One control for all shares that the caller may vote as it chooses.
function allForm(party, number, free) {
  const id = `all-${number}`, choice = radios(`${id}-way`, "Your vote on all of these", WAYS.map((way) => [way, WORDS[way]]), null);
  const made = form(id, () => {
    const way = value(choice), { notice, mine, busy } = party;
    if (busy) return;
    if (way === null) return party.say("Choose how you vote.", "bad");
    const blocks = blocksOf(mine, notice.resolutions[number - 1], notice), now = blocks.filter(isOfAll);
    if (now.some(({ as }) => as === "member") && !isNamed(party)) return;
    const casts = mine.casts.filter((cast) => cast.resolution === number);
    // A vote as instructed is one more.
    const kept = blocks.every(isFree) || casts.some(({ as }) => as === "instructed") ? 0 : 1;
    const plan = planAll(now, recorder(casts, number), MOST_VOTES - casts.length - kept, party.self, number, way);
    if (plan.casts.length + plan.left.length === 0) return party.say("All of this is recorded so already.", "good");
    const what = `${sharesWords(plan.shares)} of ${several(now.length - plan.left.length - plan.same, "holding")}`;
    const lines = [`${several(plan.casts.length, "vote")} on ${what}, sent one after another. You can stop it, and go on later by the same button.`];
    if (plan.same > 0) lines.push(`${several(plan.same, "holding")} more: this is recorded so already.`);
    if (plan.left.length > 0) {
      lines.push(`The desk takes ${numberWords(MOST_VOTES)} votes of one person on a resolution. You have sent ${numberWords(casts.length)}` +
        `${kept === 0 ? "" : ", and one is kept for voting as instructed"}. So ${several(plan.left.length, "holding")} with the fewest shares would be left out: ` +
        `${plan.left.map(({ member }) => member ?? "your own").join(", ")}.`);
    }
    sure(`Resolution ${number}: ${WORDS[way].toLowerCase()}?`, lines, "Send these votes",
      () => party.cast(plan.casts, () => `Your vote on resolution ${number} is recorded: ${way} on ${what}.`));
  }, el("h3", { id: `${id}-title`, tabindex: "-1" },
    `All shares that I may vote as I choose: ${numberWords(countAll(free))}, of ${several(free.length, "holding")}`), choice,
  el("button", { type: "submit", id: `${id}-send` }, `Vote on all of these on resolution ${number}`));
  made.setAttribute("aria-labelledby", `${id}-title`);
  return made;
}

function ballot(party, number, block, id) {
  const all = countRuns(block.runs), free = isFree(block);
  const choice = radios(`${id}-way`, "Your vote", [...(free ? WAYS : [block.way]).map((way) => [way, `${WORDS[way]}: all ${numberWords(all)}`]),
    ...(free && all > 1 ? [["split", "Split between these"]] : [])], free ? null : block.way);
  const numbers = Object.fromEntries(WAYS.map((way) => [way, numberText()]));
  const split = el("div", { class: "split", hidden: true }, ...WAYS.map((way) => field(`${id}-${way}-shares`, `Shares: ${WORDS[way].toLowerCase()}`, numbers[way])));
  choice.addEventListener("change", () => { split.hidden = value(choice) !== "split"; });
  const made = form(id, () => {
    const way = value(choice);
    if (way === null) return party.say("Choose how you vote.", "bad");
    if (block.as === "member" && !isNamed(party)) return;
    let shares = { [way]: all };
    if (way === "split") {
      shares = Object.fromEntries(WAYS.map((each) => [each, readNumber(numbers[each].value || "0")]));
      const given = Object.values(shares);
      if (given.includes(null)) return party.say("Give each number of shares in digits.", "bad");
      const sum = given.reduce((one, other) => one + other, 0);
      if (sum === 0 || sum > all) return party.say(`Give between 1 and ${numberWords(all)} shares in all. You gave ${numberWords(sum)}.`, "bad");
    }
    party.cast(castsOf(block, party.self, number, shares), () => `Your vote on resolution ${number} is recorded: ${WAYS.filter((each) => shares[each] > 0)
      .map((each) => `${each} on ${sharesWords(shares[each])}`).join(", ")}. ${blockWords(block)}.`);
  }, el("h3", { id: `${id}-title`, tabindex: "-1" }, blockWords(block)), choice, split,
  el("button", { type: "submit", id: `${id}-send` }, `Send this vote on resolution ${number}`));
  made.setAttribute("aria-labelledby", `${id}-title`);
  return made;
}

// Whether the short name is known under which own shares are voted.
function isNamed(party) {
  if (isName(party.self)) return true;
  party.say("Type your short name under “You at this meeting” first: your own shares are voted under it.", "bad");
  document.getElementById("self")?.focus();
  return false;
}

// What the caller has recorded on a resolution, in a line for each block.
export function recordedLines(party, resolution) {
  const { number } = resolution, casts = party.mine.casts.filter((cast) => cast.resolution === number);
  if (casts.length === 0) return [];
  const told = recorder(casts, number);
  return blocksOf(party.mine, resolution, party.notice).filter((block) => block.part !== "kept")
    .map((block) => `${blockWords({ ...block, part: null })}: ${recordedWords(told(block))}.`);
}

// The same where the voting is not open.
export function recordedItems(party, resolution) {
  const { number } = resolution, lines = recordedLines(party, resolution);
  return lines.length === 0 ? [] : [part(`recorded-${number}`, lines, () => [el("h3", { tabindex: "-1" }, "What you have recorded"),
    ...longList(party.lists, `was-${number}`, lines, (line) => line, (line) => el("li", { class: "recorded" }, line))])];
}
