// Requests to the desk: one at a time, with the key in a header and nowhere else.

import { lastSession } from "./words.js";

export const READS = ["notice", "mine"];

// What a reply says: {is: "ok", value}, {is: "refused", code} or {is: "fault", what}.
export function readReply(status, text) {
  let value = null;
  try { value = JSON.parse(text); } catch { /* a page of the front's */ }
  if (value !== null && typeof value === "object") {
    if (status === 200 && typeof value.ok === "string") return { is: "ok", value };
    if (Number.isInteger(value.code) && typeof value.refused === "string") return { is: "refused", code: value.code };
    if (value.failed === "Store" || value.failed === "Memory") return { is: "fault", what: value.failed };
  }
  if (status === 413 || status === 429 || status === 502 || status === 504) return { is: "fault", what: status };
  return { is: "fault", what: "foreign" };
}

export const isName = (text) => /^[A-Z0-9]{1,16}$/.test(text);

// The key in what was typed, which may have spaces in it, or in a key file: a line "Desk-Key: key", and a line "Desk-Party: M1" that
// says whose it is. {key, party}, where `party` is null if that is not said; null where there is no key.
export function readKey(text) {
  const found = { key: null, party: null };
  for (const line of text.replace(/^\uFEFF/, "").split(/\r?\n/).filter((line) => line.trim() !== "")) {
    const [, name, value] = /^\s*(?:desk-(key|party):)?(.*)$/i.exec(line);
    const what = (name ?? "key").toLowerCase();
    if (found[what] !== null) return null;
    found[what] = value.replace(/\s/g, "");
  }
  if (!/^[A-Za-z0-9-]{16,64}$/.test(found.key ?? "") || !(found.party === null || isName(found.party))) return null;
  return found;
}

const SETTINGS = ["company", "chair", "place", "contact", "texts"];

// What the secretary put into settings.json, as texts. What is not there, or is no text, is left out.
export function readSettings(text) {
  let value = {};
  try { value = JSON.parse(text) ?? {}; } catch { /* It is shown as if there were none. */ }
  const settings = Object.fromEntries(SETTINGS.map((name) => [name, value[name]]).filter(([, words]) => typeof words === "string" && words.trim() !== ""));
  if (!isName(settings.chair ?? "")) delete settings.chair;
  return settings;
}

export class Desk {
  #last = Promise.resolve();
  #fetch;
  #seconds;
  // How far the front's clock is ahead of this machine's, in milliseconds. The front stands on the desk's machine.
  ahead = 0;

  constructor(fetcher = (...words) => fetch(...words), seconds = 75) {
    this.#fetch = fetcher;
    this.#seconds = seconds;
  }

  now() { return Date.now() + this.ahead; }

  // Sends a request once all before it were answered.
  ask(key, meeting, verb, body = null) {
    const turn = this.#last.then(() => this.#send(key, meeting, verb, body));
    this.#last = turn;
    return turn;
  }

  async #send(key, meeting, verb, body) {
    const end = new AbortController();
    const timer = setTimeout(() => end.abort(), this.#seconds * 1000);
    try {
      const reply = await this.#fetch(`m/${meeting}/${verb}`, {
        method: READS.includes(verb) ? "GET" : "POST",
        headers: { "Desk-Key": key },
        // Bytes, so that the browser adds no type.
        body: body === null ? undefined : new TextEncoder().encode(JSON.stringify(body)),
        cache: "no-store", credentials: "omit", redirect: "error", referrerPolicy: "no-referrer", signal: end.signal,
      });
      const told = Date.parse(reply.headers?.get("date") ?? "");
      if (!Number.isNaN(told)) this.ahead = told - Date.now();
      return readReply(reply.status, await reply.text());
    } catch {
      return { is: "fault", what: "none" };
    } finally {
      clearTimeout(timer);
    }
  }
}

// Whether a party's request stands, by what `mine` replied before and after it. null where that can not be told.
export function stands(verb, body, before, after) {
  const same = (item) => Object.keys(body).every((field) => JSON.stringify(item[field]) === JSON.stringify(body[field]));
  switch (verb) {
    case "appoint":
      return before === null ? null : after.given.slice(before.given.length).some(same);
    case "end": {
      const found = after.given.find((given) => given.number === body.number);
      return found !== undefined && found.ended !== null;
    }
    case "authorise": return after.persons.includes(body.person);
    case "attend": return after.present;
    case "demand": {
      // Where the meeting was adjourned, a demand of an earlier session stands in the same list.
      const count = (mine) => mine.demands.filter((resolution) => resolution === body.resolution).length;
      if (after.presences === undefined) return count(after) > 0;
      return before === null ? null : count(after) > count(before);
    }
    case "cast":
      return before === null ? null : after.casts.slice(before.casts.length).some(same);
    case "instructed":
      return before === null ? null : after.casts.slice(before.casts.length)
        .some((cast) => cast.as === "instructed" && cast.resolution === body.resolution);
    default: return null;
  }
}

// Whether an office's request stands, by a notice that was asked after it. null where a notice does not tell.
export function stoodByNotice(verb, body, notice) {
  if (verb === "presence") return null;
  if (verb === "call") return notice !== null;
  if (notice === null) return false;
  const session = lastSession(notice);
  if (verb === "open") return session.opened !== null;
  // A meeting is adjourned from a session that is opened, and the new one is not.
  if (verb === "adjourn") return session.number > 1 && session.opened === null && session.appointed === body.appointed;
  const poll = notice.resolutions.find((resolution) => resolution.number === body.resolution)?.poll ?? null;
  if (poll === null) return false;
  return { order: true, start: poll.started !== null, close: poll.closed !== null, declare: poll.result !== null }[verb] ?? null;
}
