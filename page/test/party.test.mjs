// A vote on a holding in parts is several requests. What the page sends and says where one of them is refused, or its reply lost.
import { test } from "node:test";
import assert from "node:assert/strict";
import { Party } from "../party.js";
import { castsOf } from "../words.js";

const said = [];
// As much of a page as a sentence needs.
globalThis.document = {
  createElement: () => ({ children: [], setAttribute() {}, addEventListener() {}, append(...children) { this.children.push(...children); } }),
  getElementById: () => ({ replaceChildren(...children) { said.push(children[0]?.children?.[0] ?? ""); } }),
};

const empty = { authorised: [], casts: [], demands: [], given: [], meeting: "G1", ok: "mine", persons: [], present: true, received: [], row: null };
const block = { as: "proxy", member: "M1", runs: [[1, 20], [41, 60], [81, 100]], way: "free" };
const casts = castsOf(block, "P", 1, { for: 60 });
const lost = { is: "fault", what: "none" };

// Votes on the block before a desk that records what `stays` says of each request, and gives the reply that `replies` has for it.
// `reads` are replies to `mine`; where there is none, it is what was recorded.
async function vote(replies, stays, reads = [], meanwhile = () => {}) {
  const sent = [], recorded = [], outs = [];
  const desk = { now: () => 0, async ask(key, meeting, verb, body) {
    if (verb === "mine") return reads.shift() ?? { is: "ok", value: { ...empty, casts: [...recorded] } };
    if (verb === "notice") return { is: "ok", value: { resolutions: [] } };
    const place = sent.push(body.from) - 1;
    if (stays[place] ?? true) recorded.push(body);
    meanwhile(party, place);
    return replies[place] ?? { is: "ok", value: { ok: "recorded" } };
  } };
  const party = new Party({ desk, key: "k", meeting: "G1", self: "P", zone: "Europe/London", settings: {}, out: (words) => outs.push(words), keep() {}, rest: 1 }, { resolutions: [] });
  party.show = () => {};
  party.mine = empty;
  said.length = 0;
  await party.cast(casts, () => "All is recorded.");
  return { sent, pending: party.pending, busy: party.busy, last: said.at(-1), notes: party.notes.map(([, words]) => words), outs };
}

test("all parts are sent, one after another", async () => {
  const { sent, pending, busy, last, notes } = await vote([], []);
  assert.deepEqual([sent, pending, busy], [[1, 41, 81], null, false]);
  assert.match(last, /^All is recorded\. That was on Thursday 1 January 1970/);
  assert.deepEqual(notes, ["All is recorded."]);
});

test("a refusal of the poll ends the sending, and one of some shares leaves these out", async () => {
  const closed = await vote([undefined, { is: "refused", code: 30 }], [true, false]);
  assert.deepEqual([closed.sent, closed.busy], [[1, 41], false]);
  assert.match(closed.last, /^1 of 3 votes were recorded\. The voting on this resolution is closed/);
  const left = await vote([undefined, { is: "refused", code: 33 }], [true, false]);
  assert.deepEqual(left.sent, [1, 41, 81]);
  assert.match(left.last, /^2 of 3 votes were recorded\. Not taken on shares of M1\. Some of these shares are not yours/);
});

test("after a lost reply the own things are asked first, and then the rest is sent", async () => {
  const done = await vote([undefined, lost], []);
  assert.deepEqual([done.sent, done.pending], [[1, 41, 81], null]);
  const not = await vote([undefined, lost], [true, false]);
  assert.deepEqual([not.sent, not.pending], [[1, 41, 41, 81], null]);
  const late = await vote([lost], [true], [lost, lost]);
  assert.deepEqual(late.sent, [1, 41, 81]);
  for (const { last } of [done, not, late]) assert.match(last, /^All is recorded/);
  const full = await vote([{ is: "fault", what: 429 }], [false]);
  assert.deepEqual(full.sent, [1, 1, 41, 81]);
});

test("the sending is stopped by the person, also while a reply is unknown", async () => {
  const stopped = await vote([], [], [], (party) => { party.stopped = true; });
  assert.deepEqual(stopped.sent, [1]);
  assert.match(stopped.last, /^1 of 3 votes were recorded\. You stopped it/);
  const unknown = await vote([lost], [true], [lost, lost], (party) => { party.stopped = true; });
  assert.deepEqual([unknown.sent, unknown.pending?.verb], [[1], "cast"]);
  assert.match(unknown.last, /goes on asking what stands/);
});

test("a key that was replaced while a reply is unknown shows the way in", async () => {
  const { outs, busy } = await vote([lost], [], [{ is: "refused", code: 1 }, { is: "refused", code: 1 }]);
  assert.equal(busy, false);
  assert.match(outs[0], /refuses it now.*No reply had come to your last request/);
});
