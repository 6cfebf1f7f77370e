// The page's functions that do not touch the page, under Node: node --test page/test/*.test.mjs
import { test } from "node:test";
import assert from "node:assert/strict";
import { readFileSync } from "node:fs";
import * as w from "../words.js";

test("days and moments are those of the calendar from 1900 to 2999", () => {
  assert.equal(w.dayNumber("1970-01-01"), 0);
  assert.equal(w.dayNumber("2026-02-29"), null);
  assert.equal(w.dayNumber("2024-02-29"), 19782);
  assert.equal(w.dayNumber("1899-12-31"), null);
  assert.equal(w.dayNumber("3000-01-01"), null);
  assert.equal(w.momentNumber("1900-01-01T00:00:00"), -2208988800);
  assert.equal(w.momentNumber("2999-12-31T23:59:59"), 32503679999);
  assert.equal(w.momentNumber("2026-06-18T24:00:00"), null);
  assert.equal(w.fullMoment("2026-06-18T10:00"), "2026-06-18T10:00:00");
  assert.equal(w.fullMoment("T10:00"), null);
  assert.equal(w.momentText(w.momentNumber("2026-06-18T10:00:05")), "2026-06-18T10:00:05");
});

test("moments and lengths in words", () => {
  assert.equal(w.momentWords("2026-06-18T10:00:00"), "Thursday 18 June 2026 at 10:00");
  assert.equal(w.momentWords("2026-06-18T10:00:07"), "Thursday 18 June 2026 at 10:00:07");
  assert.equal(w.lengthWords(2 * 86400 + 3 * 3600 + 59), "2 days 3 hours");
  assert.equal(w.lengthWords(3600), "1 hour");
  assert.equal(w.lengthWords(0), "no time");
  const now = w.momentNumber("2026-06-16T09:00:00");
  assert.equal(w.cutoffWords("2026-06-16T10:00:00", now), "That is in 1 hour.");
  assert.equal(w.cutoffWords("2026-06-16T08:59:00", now), "That was 1 minute ago.");
  assert.match(w.cutoffWords("1900-01-01T00:00:00", now), /no time for proxies/);
});

test("the wall clock of the United Kingdom has summer time", () => {
  assert.equal(w.momentText(w.wallClock("Europe/London", Date.UTC(2026, 5, 18, 9, 0, 0))), "2026-06-18T10:00:00");
  assert.equal(w.momentText(w.wallClock("Europe/London", Date.UTC(2026, 11, 18, 9, 0, 0))), "2026-12-18T09:00:00");
});

test("each moment has the name of its zone", () => {
  w.useZone("America/New_York");
  assert.equal(w.momentWords("2026-06-18T10:00:00"), "Thursday 18 June 2026 at 10:00 (New York time)");
  w.useZone("");
  assert.equal(w.momentWords("2026-06-18T10:00:00"), "Thursday 18 June 2026 at 10:00");
});

test("parts in percent are cut, and exact", () => {
  assert.deepEqual([w.percentWords(110, 190), w.percentWords(749999999999, 1000000000000), w.percentWords(1, 3), w.percentWords(3, 3), w.percentWords(0, 0)], ["57.89%", "74.99%", "33.33%", "100.00%", "–"]);
});

test("numbers up to 10^12 are exact", () => {
  assert.equal(w.readNumber("1,000,000,000,000"), 1000000000000);
  assert.equal(w.readNumber("999 999 999 999"), 999999999999);
  assert.equal(w.readNumber("1000000000001"), null);
  for (const bad of ["", "-1", "1.5", "1e3", "0x10", "١", "99999999999999"]) assert.equal(w.readNumber(bad), null);
  assert.equal(w.numberWords(1000000000000), "1,000,000,000,000");
  assert.equal(JSON.stringify({ to: w.MOST }), '{"to":1000000000000}');
  assert.equal(w.sharesWords(1), "1 share");
});

test("runs of shares", () => {
  assert.deepEqual(w.minusRuns([[1, 100]], [41, 60]), [[1, 40], [61, 100]]);
  assert.deepEqual(w.minusRuns([[1, 100]], [1, 100]), []);
  assert.deepEqual(w.plusRuns([[1, 40], [61, 100]], [41, 60]), [[1, 100]]);
  assert.deepEqual(w.plusRuns([[10, 20]], [1, 5]), [[1, 5], [10, 20]]);
  assert.deepEqual(w.takeRuns([[1, 3], [7, 9]], 4), [[[1, 3], [7, 7]], [[8, 9]]]);
  assert.deepEqual(w.takeRuns([[1, 3]], 0), [[], [[1, 3]]]);
  assert.equal(w.countRuns([[1, w.MOST]]), w.MOST);
  assert.equal(w.runsWords([[1, 40], [50, 50]]), "1 to 40, 50");
  // Against a plain set of places.
  let seed = 7;
  const next = (most) => (seed = seed * 48271 % 2147483647) % most;
  for (let round = 0; round < 300; round += 1) {
    let runs = [];
    const set = new Set();
    for (let step = 0; step < 8; step += 1) {
      const from = 1 + next(20), to = from + next(6), more = next(2) === 1;
      runs = more ? w.plusRuns(runs, [from, to]) : w.minusRuns(runs, [from, to]);
      for (let place = from; place <= to; place += 1) more ? set.add(place) : set.delete(place);
    }
    assert.deepEqual(runs.flatMap(([from, to]) => Array.from({ length: to - from + 1 }, (_, place) => from + place)), [...set].sort((a, b) => a - b));
    assert.ok(runs.every(([from], place) => place === 0 || runs[place - 1][1] + 1 < from));
  }
});

const mine = (more) => ({ authorised: [], casts: [], demands: [], given: [], persons: [], present: true, received: [], row: null, ...more });
const notice = { appointed: "2026-06-18T10:00:00", cutoff: "2026-06-16T10:00:00", opened: "2026-06-18T10:00:00" };
const open = { number: 2, kind: "special", text: "x", poll: { late: false, result: null, closed: null, started: "x" } };

test("the blocks that may be voted", () => {
  const row = { kind: "individual", name: "Ada", paid: 100, shares: 100 };
  assert.deepEqual(w.blocksOf(mine({ row }), open, notice).map(({ as, runs, part }) => [as, runs, part]), [["member", [[1, 100]], null]]);
  const given = [{ from: 1, to: 60, received: "2026-06-02T10:00:00", ended: null, use: "meeting" },
    { from: 50, to: 90, received: "2026-06-02T10:00:01", ended: "2026-06-18T09:59:59", use: "meeting" },
    { from: 1, to: 100, received: "2026-06-17T10:00:00", ended: null, use: "later polls only" }];
  assert.deepEqual(w.blocksOf(mine({ row, given }), open, notice).map(({ runs, part }) => [runs, part]), [[[[50, 100]], "kept"], [[[1, 100]], "all"]]);
  const late = { ...open, poll: { ...open.poll, late: true, cutoff: "2026-06-22T09:00:00", take: "2026-06-23T09:00:00" } };
  assert.deepEqual(w.blocksOf(mine({ row, given }), late, notice).map(({ runs, part }) => [runs, part]), [[[[1, 100]], "all"]]);
  assert.deepEqual(w.blocksOf(mine({ row: { ...row, kind: "corporation" } }), open, notice), []);
  assert.deepEqual(w.blocksOf(mine({ authorised: [{ corporation: "C1", shares: 50 }, { corporation: "T1", shares: 0 }] }), open, notice).map(({ member, runs }) => [member, runs]), [["C1", [[1, 50]]]]);
  const received = [{ member: "M1", governs: [[1, 60]], instructions: ["for", "free"], polls: [{ governs: [[2, 3]], resolution: 2 }] },
    { member: "M1", governs: [[61, 70]], instructions: ["for", "free"], polls: [] }, { member: "M2", governs: [], instructions: ["free", "free"], polls: [] }];
  assert.deepEqual(w.blocksOf(mine({ received }), open, notice), [{ as: "proxy", member: "M1", runs: [[1, 70]], way: "free" }]);
  assert.deepEqual(w.blocksOf(mine({ received }), late, notice), [{ as: "proxy", member: "M1", runs: [[2, 3]], way: "free" }]);
});

test("what the caller's own proxies have, to the second", () => {
  const own = (given, late) => {
    const poll = { late, cutoff: late ? "2026-06-22T09:00:00" : "2026-06-16T10:00:00", take: "2026-06-23T09:00:00", result: null, closed: null, started: "x" };
    const row = { kind: "individual", name: "Ada", paid: 100, shares: 100 };
    return w.blocksOf(mine({ row, given }), { ...open, poll }, notice).map(({ runs, part }) => [runs, part]);
  };
  const whole = [[[[1, 100]], null]], split = [[[[1, 40], [61, 100]], "kept"], [[[1, 100]], "all"]];
  const item = (received, ended) => [{ from: 41, to: 60, received, ended, use: received <= "2026-06-16T10:00:00" ? "meeting" : "later polls only" }];
  // For the meeting: received until its cutoff, ended before its opening.
  assert.deepEqual(own(item("2026-06-16T10:00:00", null), false), split);
  assert.deepEqual(own(item("2026-06-16T10:00:01", null), false), whole);
  assert.deepEqual(own(item("2026-06-02T10:00:00", "2026-06-18T09:59:59"), false), whole);
  assert.deepEqual(own(item("2026-06-02T10:00:00", "2026-06-18T10:00:00"), false), split);
  // For a late poll: received until its cutoff, ended before its taking.
  assert.deepEqual(own(item("2026-06-22T09:00:00", null), true), split);
  assert.deepEqual(own(item("2026-06-22T09:00:01", null), true), whole);
  assert.deepEqual(own(item("2026-06-02T10:00:00", "2026-06-23T08:59:59"), true), whole);
  assert.deepEqual(own(item("2026-06-02T10:00:00", "2026-06-23T09:00:00"), true), split);
  // One that is ended does not give its shares back to an earlier one.
  const covered = [...item("2026-06-02T10:00:00", null), { from: 1, to: 50, received: "2026-06-03T10:00:00", ended: "2026-06-09T10:00:00", use: "meeting" }];
  assert.deepEqual(own(covered, false), [[[[1, 50], [61, 100]], "kept"], [[[1, 100]], "all"]]);
});

test("a holding in parts, as replies of the cases tell it", () => {
  const told = (name, verb) => readFileSync(new URL(`../../cases/${name}.case`, import.meta.url), "utf8").split("\n")
    .filter((line) => line.startsWith("< ") && line.includes(`"ok":"${verb}"`)).map((line) => JSON.parse(line.slice(2)));
  const late = { number: 1, kind: "ordinary", text: "x", poll: { late: true, cutoff: "2026-06-22T09:00:00", take: "2026-06-23T09:00:00", result: null, closed: null, started: "x" } };
  const [first, second, third] = told("proxies-late-poll", "mine");
  assert.deepEqual(w.blocksOf(first, late, notice), [{ as: "proxy", member: "M1", runs: [[1, 40], [61, 100]], way: "free" }]);
  assert.deepEqual(w.blocksOf(first, { ...late, number: 2, poll: { ...late.poll, late: false } }, notice), [{ as: "proxy", member: "M1", runs: [[1, 100]], way: "free" }]);
  assert.deepEqual(w.blocksOf(second, late, notice).map(({ runs }) => runs), [[[41, 60]]]);
  assert.deepEqual(w.blocksOf(third, late, notice), []);
  // Votes on both parts, and one that is split across the gap.
  const [block] = w.blocksOf(first, late, notice);
  assert.deepEqual(w.castsOf(block, "P", 1, { for: 80 }).map(({ from, to }) => [from, to]), [[1, 40], [61, 100]]);
  const casts = w.castsOf(block, "P", 1, { for: 41, withheld: 39 });
  assert.deepEqual(casts.map(({ from, to, way }) => [from, to, way]), [[1, 40, "for"], [61, 61, "for"], [62, 100, "withheld"]]);
  assert.deepEqual(w.recorder(casts, 1)(block), { for: [[1, 40], [61, 61]], against: [], withheld: [[62, 100]] });

  // A member, proxy and representative in one: the first resolution as the meeting has it, the second by a late poll.
  const [full] = told("own-things-full", "mine");
  const blocks = (number, poll) => w.blocksOf(full, { ...late, number, poll: { ...late.poll, ...poll } }, notice).map(({ as, member, runs, way, part }) => [as, member, runs, way, part]);
  const own = [["member", null, [[11, 40]], "free", "kept"], ["member", null, [[1, 40]], "free", "all"], ["rep", "C1", [[1, 50]], "free", undefined]];
  assert.deepEqual(blocks(1, { late: false }), [...own, ["proxy", "M1", [[1, 60]], "for", undefined]]);
  assert.deepEqual(blocks(2, {}), [...own, ["proxy", "M1", [[1, 40]], "free", undefined]]);
  const [kept, , rep, proxy] = w.blocksOf(full, { ...late, poll: { ...late.poll, late: false } }, notice);
  assert.deepEqual([kept, rep, proxy].map((each) => w.recorder(full.casts, 1)(each)), [{ for: [], against: [[11, 40]], withheld: [] },
    { for: [[1, 50]], against: [], withheld: [] }, { for: [[1, 60]], against: [], withheld: [] }]);
});

test("a meeting of several sessions, as replies of the cases tell it", () => {
  const told = (name, verb) => readFileSync(new URL(`../../cases/${name}.case`, import.meta.url), "utf8").split("\n")
    .filter((line) => line.startsWith("< ") && line.includes(`"ok":"${verb}"`)).map((line) => JSON.parse(line.slice(2)));
  const [alone, two] = told("adjourned-own-things", "notice"), ten = told("adjourned-own-things", "notice").at(-1);
  assert.deepEqual([alone, two, ten].map((told) => w.sessionsOf(told).length), [1, 2, 10]);
  assert.deepEqual(w.lastSession(alone), { number: 1, appointed: "2026-06-18T10:00:00", cutoff: "2026-06-16T10:00:00", opened: "2026-06-18T10:00:00" });
  assert.deepEqual(w.lastSession(two), { number: 2, appointed: "2026-06-20T10:00:00", cutoff: "2026-06-18T00:00:00", opened: null });
  assert.equal(w.sessionOf(ten, ten.resolutions[1].poll).number, 5);
  assert.equal(w.sessionOf(ten, ten.resolutions[0].poll).number, 10);
  // A proxy's shares on a poll of the fifth session, and on one of the last.
  const own = told("adjourned-own-things", "mine").find((mine) => mine.received.length === 10);
  const runs = (number, poll) => w.blocksOf(own, { number, poll, kind: "ordinary", text: "x" }, ten).map(({ runs }) => runs);
  assert.deepEqual(runs(2, ten.resolutions[1].poll), [own.received.reduce((sum, { sessions }) => sessions[4].governs.reduce(w.plusRuns, sum), [])]);
  assert.deepEqual(runs(1, null), [own.received.reduce((sum, { governs }) => governs.reduce(w.plusRuns, sum), [])]);
  assert.notDeepEqual(runs(1, null), runs(2, ten.resolutions[1].poll));
  // A member's own shares: what came between the sessions counts for the second, and not for a poll of the first.
  const row = { kind: "individual", name: "Ada", paid: 100, shares: 100 };
  const given = [{ from: 1, to: 60, received: "2026-06-19T09:00:00", ended: null, use: "meeting" },
    { from: 61, to: 100, received: "2026-06-02T09:00:00", ended: "2026-06-19T09:00:00", use: "meeting" }];
  const held = { sessions: [{ number: 1, ...notice }, { number: 2, appointed: "2026-06-25T10:00:00", cutoff: "2026-06-23T10:00:00", opened: "2026-06-25T10:00:00" }] };
  const kept = (session) => w.givenAway(given, { ...open.poll, session }, w.sessionOf(held, { session }));
  assert.deepEqual([kept(1), kept(2)], [[[61, 100]], [[1, 60]]]);
});

test("which polls run", () => {
  const poll = { late: false, started: null, closed: null };
  const running = (...polls) => w.runningPolls({ resolutions: polls.map((poll, place) => ({ number: place + 1, poll })) });
  assert.deepEqual(running(null, poll, { ...poll, late: true }, { ...poll, late: true, started: "x" }, { ...poll, started: "x", closed: "x" }), [2, 4]);
});

test("casts for a block, in parts and split, and what was recorded", () => {
  const block = { as: "proxy", member: "M1", runs: [[1, 40], [61, 100]], way: "free" };
  assert.deepEqual(w.castsOf(block, "P", 1, { for: 80 }), [
    { resolution: 1, as: "proxy", member: "M1", from: 1, to: 40, way: "for" }, { resolution: 1, as: "proxy", member: "M1", from: 61, to: 100, way: "for" }]);
  const casts = w.castsOf(block, "P", 1, { for: 50, against: 20, withheld: 1 });
  assert.deepEqual(casts.map(({ from, to, way }) => [from, to, way]), [[1, 40, "for"], [61, 70, "for"], [71, 90, "against"], [91, 91, "withheld"]]);
  const told = w.recorder([...casts, { resolution: 1, as: "proxy", member: "M1", from: 30, to: 65, way: "withheld" }, { resolution: 2, as: "proxy", member: "M1", from: 1, to: 100, way: "against" }], 1)(block);
  assert.deepEqual(told, { for: [[1, 29], [66, 70]], against: [[71, 90]], withheld: [[30, 40], [61, 65], [91, 91]] });
  assert.equal(w.recordedWords({ for: [[1, 29], [66, 70]], against: [], withheld: [] }), "for on 34 shares (1 to 29, 66 to 70)");
  const own = { as: "member", member: null, runs: [[1, 100]], way: "free" };
  assert.deepEqual(w.castsOf(own, "M1", 1, { against: 100 }), [{ resolution: 1, as: "member", member: "M1", from: 1, to: 100, way: "against" }]);
  const bound = { ...block, way: "for" };
  assert.deepEqual(w.recorder([{ as: "instructed", resolution: 1 }], 1)(bound).for, block.runs);
});

test("what was recorded is found in one pass, as by looking at each share", () => {
  let seed = 11;
  const next = (most) => (seed = seed * 48271 % 2147483647) % most;
  for (let round = 0; round < 200; round += 1) {
    const casts = Array.from({ length: next(12) }, () => next(4) === 0 ? { as: "instructed", resolution: 1 + next(2) }
      : { as: ["member", "rep", "proxy"][next(3)], member: ["A", "B"][next(2)], resolution: 1 + next(2), from: 1 + next(5), to: 5 + next(5), way: w.WAYS[next(3)] });
    for (const block of [{ as: "proxy", member: "A", runs: [[1, 3], [6, 8]], way: ["free", ...w.WAYS][next(4)] }, { as: "rep", member: "B", runs: [[1, 9]], way: "free" }]) {
      const places = { for: [], against: [], withheld: [] };
      for (const place of block.runs.flatMap(([from, to]) => Array.from({ length: to - from + 1 }, (_, more) => from + more))) {
        const last = casts.filter((cast) => cast.resolution === 1 && (cast.as === "instructed" ? block.as === "proxy" && block.way !== "free"
          : cast.as === block.as && cast.member === block.member && cast.from <= place && place <= cast.to)).at(-1);
        if (last !== undefined) places[last.way ?? block.way].push(place);
      }
      const told = w.recorder(casts, 1)(block);
      for (const way of w.WAYS) assert.deepEqual(told[way].flatMap(([from, to]) => Array.from({ length: to - from + 1 }, (_, more) => from + more)), places[way]);
    }
  }
});

test("one way on all blocks: what is recorded takes no cast, and the fewest shares are left out", () => {
  const block = (member, ...runs) => ({ as: "proxy", member, runs, way: "free" });
  const blocks = [block("A", [1, 5]), block("B", [1, 3], [5, 6]), block("C", [1, 100]), { as: "member", member: null, runs: [[1, 7]], way: "free" }];
  const plan = (casts, room) => {
    const { casts: sent, shares, left, same } = w.planAll(blocks, w.recorder(casts, 1), room, "M", 1, "for");
    return [sent.map(({ as, member, from, to, way }) => `${as} ${member} ${from}-${to} ${way}`), shares, left.map(({ member }) => member), same];
  };
  assert.deepEqual(plan([], 9), [["proxy A 1-5 for", "proxy B 1-3 for", "proxy B 5-6 for", "proxy C 1-100 for", "member M 1-7 for"], 117, [], 0]);
  assert.deepEqual(plan([], 3), [["proxy A 1-5 for", "proxy C 1-100 for", "member M 1-7 for"], 112, ["B"], 0]);
  assert.deepEqual(plan([], 1), [["proxy C 1-100 for"], 100, ["A", "B", null], 0]);
  const cast = (member, from, to, way, as = "proxy") => ({ resolution: 1, as, member, from, to, way });
  assert.deepEqual(plan([cast("A", 1, 5, "for"), cast("C", 1, 60, "for"), cast("C", 10, 20, "against")], 9),
    [["proxy B 1-3 for", "proxy B 5-6 for", "proxy C 10-20 for", "proxy C 61-100 for", "member M 1-7 for"], 63, [], 1]);
  assert.deepEqual(plan([cast("A", 1, 5, "for"), cast("B", 1, 6, "for"), cast("C", 1, 100, "for"), cast("M", 1, 7, "for", "member")], 9), [[], 0, [], 4]);
});

test("1,100 members take no more than a second, whatever was recorded", () => {
  const received = Array.from({ length: 1100 }, (_, place) => ({ member: `X${place}`, governs: [[1, 10]], instructions: ["free", "free"], polls: [] }));
  const casts = received.slice(0, 1024).map(({ member }) => ({ resolution: 2, as: "proxy", member, from: 1, to: 10, way: "for" }));
  const begun = performance.now(), blocks = w.blocksOf(mine({ received, casts }), open, notice), told = w.recorder(casts, 2);
  assert.equal(blocks.filter((block) => told(block).for.length === 1).length, 1024);
  assert.ok(performance.now() - begun < 1000);
});

test("stages, asking again and the bar", () => {
  const stage = (poll) => w.stageOf({ poll });
  const poll = { result: null, closed: null, started: null };
  assert.deepEqual([null, poll, { ...poll, started: "x" }, { ...poll, started: "x", closed: "x" }, { ...poll, result: {} }].map(stage), ["no poll", "ordered", "open", "closed", "declared"]);
  const notice = (polls) => ({ appointed: "2026-06-18T10:00:00", resolutions: polls.map((each) => ({ poll: each })) });
  const now = w.momentNumber("2026-06-01T10:00:00");
  assert.equal(w.askAgain(notice([null, { ...poll, started: "x" }]), now), 5);
  assert.equal(w.askAgain(notice([null, poll]), now), 15);
  assert.equal(w.askAgain(notice([null]), now), 60);
  assert.equal(w.askAgain(notice([null]), w.momentNumber("2026-06-18T09:30:00")), 15);
  assert.equal(w.askAgain(notice([null]), w.momentNumber("2026-06-18T11:10:00")), 60);
  assert.equal(w.askAgain(notice([{ ...poll, result: {} }, null]), w.momentNumber("2026-06-18T12:30:00")), 60);
  assert.equal(w.askAgain(notice([{ ...poll, result: {} }]), w.momentNumber("2026-06-18T09:30:00")), 0);
  const bar = w.resultBar("special", { for: 60, against: 50, withheld: 40, eligible: 190, carried: false });
  assert.deepEqual([bar.yes, bar.line, bar.votes, bar.unvoted], [545, 750, 110, 40]);
  assert.equal(w.resultBar("ordinary", { for: 0, against: 0, withheld: 0, eligible: 5, carried: false }).yes, 0);
});

test("a call is checked before it is sent", () => {
  const now = w.momentNumber("2026-06-01T09:00:00");
  const call = { meeting: "G1", company: "private", kind: "general", given: "2026-06-01", appointed: "2026-06-18T10:00:00", record: "2026-06-16T18:00:00", resolutions: [["ordinary", "To receive the accounts"]] };
  const told = (more) => { const { errors, warnings } = w.checkCall({ ...call, ...more }, now); return [errors.map((error) => error.field), warnings.length]; };
  assert.deepEqual(told({}), [[], 0]);
  assert.deepEqual(told({ appointed: "2026-06-16T10:00:00", record: "2026-06-15T18:00:00" }), [[], 0]);
  assert.deepEqual(told({ appointed: "2026-06-15T10:00:00", record: "2026-06-14T18:00:00" })[0], ["call-appointed"]);
  assert.deepEqual(told({ company: "public", kind: "annual" })[0], ["call-appointed"]);
  assert.deepEqual(told({ company: "public", kind: "annual", appointed: "2026-06-23T10:00:00" })[0], []);
  assert.match(w.checkCall({ ...call, record: "2026-06-18T10:00:01" }, now).warnings[0], /record moment is after/);
  assert.match(w.checkCall({ ...call, given: "2025-06-01" }, now).warnings[0], /381 clear days/);
  assert.deepEqual(told({ given: "2026-06-03" }), [[], 0]);
  assert.deepEqual(told({ given: "", appointed: "", record: "", meeting: "g1", resolutions: [] })[0], ["call-name", "call-given", "call-appointed", "call-record", "call-add"]);
  assert.deepEqual(told({ resolutions: [["special", ""]] })[0], ["call-text-1"]);
  assert.deepEqual(told({ resolutions: [["special", "é".repeat(101)]] })[0], ["call-text-1"]);
  assert.deepEqual(told({ resolutions: [["special", "é".repeat(100)]] })[0], []);
});

test("names from a file, and not from the keys", () => {
  const plain = (party) => ({ party, name: "" });
  assert.deepEqual(w.namesIn("OFFICE\nM1\r\nM2\n\nM1\nm3\n"), [plain("M1"), plain("M2")]);
  assert.deepEqual(w.namesIn('member,kind,name,shares,paid\nM1,individual,Ada,100,100\nM2,corporation,"Carr, ""X"" Ltd",1,1\nT1,treasury,Own,1,1\n'),
    [{ party: "M1", name: "Ada" }, { party: "M2", name: 'Carr, "X" Ltd' }]);
  assert.equal(w.namesIn("party,key\nM1,zzzzzzzzzzzzzzzz\n"), null);
});
