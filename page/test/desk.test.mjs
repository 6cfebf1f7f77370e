// Requests, replies and refusals.
import { test } from "node:test";
import assert from "node:assert/strict";
import { readFileSync } from "node:fs";
import { Desk, readReply, readKey, readSettings, isName, stands, stoodByNotice } from "../desk.js";
import { hindrance } from "../office.js";
import { momentNumber } from "../words.js";
import { REFUSALS, FAULTS, sentence, isUnknown, meansDone } from "../refusals.js";

test("replies of the desk and of a front", () => {
  assert.deepEqual(readReply(200, '{"ok":"called"}'), { is: "ok", value: { ok: "called" } });
  assert.deepEqual(readReply(409, '{"code":28,"refused":"DemandTooSmall"}'), { is: "refused", code: 28 });
  assert.deepEqual(readReply(503, '{"failed":"Store"}'), { is: "fault", what: "Store" });
  assert.deepEqual(readReply(503, '{"failed":"Memory"}'), { is: "fault", what: "Memory" });
  for (const status of [413, 429, 502, 504]) assert.deepEqual(readReply(status, "<html>"), { is: "fault", what: status });
  assert.deepEqual(readReply(200, "<html>log in</html>"), { is: "fault", what: "foreign" });
  assert.deepEqual(readReply(500, ""), { is: "fault", what: "foreign" });
  assert.deepEqual(readReply(302, "null"), { is: "fault", what: "foreign" });
});

test("keys, typed and from a file, and whose they are", () => {
  const key = "zzzzzzzz-zzzzzzz";
  for (const bare of [`Desk-Key: ${key}\n`, `\uFEFFdesk-key:${key}\r\n\r\n`, `  ${key} `, "zzzz zzzz -zzz\tzzzz"]) assert.deepEqual(readKey(bare), { key, party: null });
  assert.deepEqual(readKey(`Desk-Key: ${key}\nDesk-Party: M1\n`), { key, party: "M1" });
  assert.deepEqual(readKey(`desk-party:  OFFICE\r\nDESK-KEY:${key}`), { key, party: "OFFICE" });
  for (const bad of ["", "short", "z".repeat(65), "party,key\nM1,zzzzzzzzzzzzzzzz", "zzzzzzzzzzzzzzzé", "Desk-Party: M1", `Desk-Key: ${key}\nDesk-Party: m1`,
    `Desk-Key: ${key}\n${key}`, `${key}\nDesk-Party: M1\nDesk-Party: M1`, `Desk-Key: ${key}\nDesk-Other: M1`]) assert.equal(readKey(bad), null, bad);
  assert.ok(isName("OFFICE") && isName("1") && !isName("") && !isName("m1") && !isName("A".repeat(17)));
});

test("the secretary's settings are texts, and what else is in their file is left out", () => {
  const whole = { company: "Carr <b>Ltd</b>", chair: "M9", place: "1 High Street", contact: "x@y.example", texts: "https://y.example/g1" };
  assert.deepEqual(readSettings(JSON.stringify({ ...whole, more: "x" })), whole);
  assert.deepEqual(readSettings('{"company":7,"chair":"the chair","place":" ","texts":null}'), {});
  for (const bad of ["", "null", "[]", "7", "<html>", '{"company":']) assert.deepEqual(readSettings(bad), {}, bad);
});

test("a request has one header, its method and no key in its address; one is sent at a time", async () => {
  const sent = [];
  let running = 0, most = 0;
  const desk = new Desk(async (url, options) => {
    running += 1;
    most = Math.max(most, running);
    await new Promise((done) => setTimeout(done, 5));
    running -= 1;
    sent.push([url, options.method, options.headers, options.body === undefined ? null : new TextDecoder().decode(options.body)]);
    if (url.endsWith("/end")) throw new TypeError("network");
    return { status: 200, text: async () => '{"ok":"noted"}' };
  });
  const replies = await Promise.all([desk.ask("k", "G1", "mine"), desk.ask("k", "G1", "end", { number: 1 }), desk.ask("k", "G1", "attend")]);
  assert.deepEqual(sent, [["m/G1/mine", "GET", { "Desk-Key": "k" }, null], ["m/G1/end", "POST", { "Desk-Key": "k" }, '{"number":1}'], ["m/G1/attend", "POST", { "Desk-Key": "k" }, null]]);
  assert.equal(most, 1);
  assert.deepEqual(replies.map((reply) => reply.is), ["ok", "fault", "ok"]);
});

test("a reply that does not come in time is unknown", async () => {
  const desk = new Desk((_, { signal }) => new Promise((_, fail) => signal.addEventListener("abort", () => fail(new Error("aborted")))), 0.02);
  const reply = await desk.ask("k", "G1", "attend");
  assert.deepEqual(reply, { is: "fault", what: "none" });
  assert.ok(isUnknown(reply));
});

test("each refusal of the rules has its sentence, with what to do", () => {
  const rules = readFileSync(new URL("../../docs/RULES.md", import.meta.url), "utf8");
  const named = [...rules.matchAll(/^\| (\d+) \| ([A-Za-z]+) \|/gm)].map(([, code, name]) => [Number(code), name]);
  assert.ok(named.length >= 34);
  assert.deepEqual(Object.entries(REFUSALS).map(([code, { name }]) => [Number(code), name]), named);
  const all = [...Object.values(REFUSALS).flatMap(({ say, by }) => [say, ...Object.values(by ?? {})])];
  for (const words of all) {
    assert.match(words, /^[A-Z“].*\.$/);
    assert.equal(words.split(/\. /).length, 1, words);
    assert.match(words, /[:,]/, words);
  }
  for (const { say } of Object.values(FAULTS)) assert.match(say, /\.$/);
});

test("refusals that each verb may get, by HTTP.md, have a sentence; a repeated step says that it was done", () => {
  const http = readFileSync(new URL("../../docs/HTTP.md", import.meta.url), "utf8");
  const routes = [...http.matchAll(/^\| `(?:GET|POST) \/m\/G1\/([a-z]+)` \|.*\| ([\d ]+) \|$/gm)];
  assert.ok(routes.length >= 16);
  for (const [, verb, codes] of routes) {
    for (const code of codes.split(" ").map(Number)) assert.ok(sentence({ is: "refused", code }, verb).length > 20, `${verb} ${code}`);
  }
  assert.ok(meansDone("declare", { is: "refused", code: 32 }) && meansDone("start", { is: "refused", code: 9 }) && !meansDone("order", { is: "refused", code: 28 }));
  assert.match(sentence({ is: "refused", code: 99 }, "cast"), /\(99\)/);
  assert.match(sentence({ is: "fault", what: 503 }, "cast"), /unknown/);
  assert.doesNotMatch(sentence({ is: "fault", what: 502 }, "mine"), /unknown/);
  assert.ok(!isUnknown({ is: "fault", what: "Memory" }) && !isUnknown({ is: "fault", what: 413 }) && isUnknown({ is: "fault", what: "Store" }) && isUnknown({ is: "fault", what: 502 }));
});

test("the clock is that of the front", async () => {
  const desk = new Desk(async () => ({ status: 200, text: async () => '{"ok":"noted"}', headers: new Headers({ date: "Thu, 18 Jun 2026 09:00:00 GMT" }) }));
  await desk.ask("k", "G1", "attend");
  assert.ok(Math.abs(desk.now() - Date.UTC(2026, 5, 18, 9)) < 2000);
});

test("what stands in the way of opening and starting", () => {
  const notice = { register: true, appointed: "2026-06-18T10:00:00" };
  const now = momentNumber("2026-06-18T10:00:00");
  assert.equal(hindrance("open", notice, null, now), null);
  assert.match(hindrance("open", notice, null, now - 1), /can be opened from Thursday 18 June 2026 at 10:00/);
  assert.match(hindrance("open", { ...notice, register: false }, null, now), /register is not loaded/);
  assert.equal(hindrance("start", notice, { poll: { take: "2026-06-18T10:00:00" } }, now), null);
  assert.match(hindrance("start", notice, { poll: { take: "2026-06-18T10:10:00" } }, now), /can be started/);
  const adjourned = { ...notice, sessions: [{ number: 1, ...notice }, { number: 2, appointed: "2026-06-25T10:00:00", opened: null }] };
  assert.match(hindrance("open", adjourned, null, now), /can be opened from Thursday 25 June 2026 at 10:00/);
  const polls = (...given) => ({ ...notice, resolutions: given.map((poll, place) => ({ number: place + 1, poll })) });
  assert.equal(hindrance("adjourn", polls(null, { late: true, started: null, closed: null }), null, now), null);
  assert.match(hindrance("adjourn", polls(null, { late: false, started: null, closed: null }), null, now), /the voting is closed on resolution 2/);
  assert.match(hindrance("adjourn", { ...polls(null), sessions: Array(10).fill({}) }, null, now), /ten sessions/);
});

test("whether a party's request stands", () => {
  const empty = { authorised: [], casts: [], demands: [], given: [], persons: [], present: false, received: [], row: null };
  const cast = { resolution: 1, as: "member", member: "M1", from: 1, to: 9, way: "for" };
  assert.equal(stands("cast", cast, empty, { ...empty, casts: [{ as: "member", from: 1, member: "M1", resolution: 1, to: 9, way: "for" }] }), true);
  assert.equal(stands("cast", cast, { ...empty, casts: [cast] }, { ...empty, casts: [cast] }), false);
  assert.equal(stands("cast", cast, null, empty), null);
  const appoint = { proxy: "P", from: 1, to: 60, instructions: ["for", "free"] };
  assert.equal(stands("appoint", appoint, empty, { ...empty, given: [{ ...appoint, number: 1, ended: null, received: "x", use: "meeting" }] }), true);
  assert.equal(stands("appoint", appoint, empty, { ...empty, given: [{ ...appoint, instructions: ["for", "for"], number: 1 }] }), false);
  assert.equal(stands("end", { number: 1 }, empty, { ...empty, given: [{ number: 1, ended: "x" }] }), true);
  assert.equal(stands("end", { number: 1 }, empty, { ...empty, given: [{ number: 1, ended: null }] }), false);
  assert.equal(stands("attend", {}, empty, { ...empty, present: true }), true);
  assert.equal(stands("demand", { resolution: 2 }, empty, { ...empty, demands: [1] }), false);
  assert.equal(stands("demand", { resolution: 1 }, { ...empty, demands: [1] }, { ...empty, demands: [1] }), true);
  const again = (demands) => ({ ...empty, demands, presences: [1, 2] });
  assert.deepEqual([[1], [1, 1]].map((after) => stands("demand", { resolution: 1 }, again([1]), again(after))), [false, true]);
  assert.equal(stands("demand", { resolution: 1 }, null, again([1])), null);
  assert.equal(stands("authorise", { person: "R" }, empty, { ...empty, persons: ["R"] }), true);
  assert.equal(stands("instructed", { resolution: 1 }, empty, { ...empty, casts: [{ as: "instructed", resolution: 1 }] }), true);
});

test("whether an office's request stands", () => {
  const notice = { opened: null, resolutions: [{ number: 1, poll: null }, { number: 2, poll: { started: "x", closed: null, result: null } }] };
  assert.deepEqual([stoodByNotice("call", {}, null), stoodByNotice("call", {}, notice), stoodByNotice("open", {}, notice), stoodByNotice("presence", { party: "R" }, notice)], [false, true, false, null]);
  const adjourned = (opened) => ({ ...notice, sessions: [{ number: 1, opened: "x" }, { number: 2, appointed: "2026-06-25T10:00:00", opened }] });
  assert.deepEqual([null, "x"].map((opened) => stoodByNotice("open", {}, adjourned(opened))), [false, true]);
  assert.deepEqual(["2026-06-25T10:00:00", "2026-06-26T10:00:00"].map((appointed) => stoodByNotice("adjourn", { appointed }, adjourned(null))), [true, false]);
  assert.equal(stoodByNotice("adjourn", { appointed: "2026-06-25T10:00:00" }, adjourned("x")), false);
  assert.equal(stoodByNotice("adjourn", { appointed: "2026-06-25T10:00:00" }, { ...notice, appointed: "2026-06-25T10:00:00" }), false);
  assert.deepEqual(["order", "start", "close", "declare"].map((verb) => stoodByNotice(verb, { resolution: 1 }, notice)), [false, false, false, false]);
  assert.deepEqual(["order", "start", "close", "declare"].map((verb) => stoodByNotice(verb, { resolution: 2 }, notice)), [true, true, false, false]);
});
