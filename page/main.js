// The way in, the clock and the way out. The key is in this module's variables, and in sessionStorage where that was ticked.

import { Desk, readKey, readSettings, isName } from "./desk.js";
import { sentence } from "./refusals.js";
import { cutoffWords, momentWords, useZone } from "./words.js";
import { own, say } from "./forms.js";
import { Party } from "./party.js";
import { Office } from "./office.js";

const KEPT = "desk-page";
const at = (id) => document.getElementById(id);
const zone = document.querySelector("meta[name=desk-zone]").content;
const desk = new Desk();
const settings = {};
let person = null, asked = 0, entering = false;
// The last {key, meeting, self, second} that the desk took.
let last = {};
try { last = JSON.parse(sessionStorage.getItem(KEPT)) ?? {}; } catch { /* It was written by another page. */ }

function keep(words) {
  last = { ...last, ...words };
  if (at("keep").checked) sessionStorage.setItem(KEPT, JSON.stringify(last));
}

// The meeting that the address names.
const linked = () => /^#([A-Z0-9]{1,16})$/.exec(location.hash)?.[1] ?? null;

// Shows the way in, with a sentence and perhaps a key, in place of the person who was there.
function out(words, key = "") {
  if (person !== null) person.gone = true;
  person = null;
  sessionStorage.removeItem(KEPT);
  at("view").replaceChildren();
  for (const id of ["refresh", "leave"]) at(id).hidden = true;
  at("enter").hidden = false;
  at("who").textContent = "";
  at("key").value = key;
  say(words, "bad");
  at("key").focus();
}

async function enter({ key, meeting, self = "", second = null }) {
  say("The desk is asked ..", "wait");
  const reply = await desk.ask(key, meeting, "notice");
  const office = reply.is === "refused" && reply.code === 7;
  if (reply.is !== "ok" && !office) {
    say(sentence(reply, "notice"), "bad");
    return at(reply.is === "refused" && reply.code === 8 ? "meeting" : "key").focus();
  }
  const way = { desk, key, meeting, self, second, zone, settings, out, keep };
  keep({ key, meeting, self, second });
  person = office ? new Office(way) : new Party(way, reply.value);
  at("enter").hidden = true;
  for (const id of ["refresh", "leave"]) at(id).hidden = false;
  for (const id of ["key", "key-file"]) at(id).value = "";
  document.querySelector("h1").textContent = document.title = `General meeting ${meeting}`;
  at("who").textContent = office ? "You are here as the secretary." : `You are here as ${self === "" ? "a member, proxy or representative" : self}.`;
  history.replaceState(null, "", `#${meeting}`);
  say("", "good");
  if (!office) person.show();
  await look();
  at("main").focus();
}

// One at a time: a second click on Enter does nothing while the first is answered.
async function enterOnce(way) {
  if (entering) return;
  entering = true;
  try { await enter(way); } finally { entering = false; }
}

at("enter").addEventListener("submit", async (event) => {
  event.preventDefault();
  const file = at("key-file").files[0], typed = at("key").value;
  const read = readKey(typed !== "" || !file ? typed : await file.text());
  const meeting = at("meeting").value.trim().toUpperCase();
  if (read === null) { say("Type your key, or choose the file with it. A key has 16 to 64 letters, digits and hyphens.", "bad"); return at("key").focus(); }
  if (!isName(meeting)) { say("Give the name of the meeting: 1 to 16 capitals and digits.", "bad"); return at("meeting").focus(); }
  await enterOnce({ ...(read.key === last.key ? last : {}), key: read.key, meeting, ...(read.party === null ? {} : { self: read.party }) });
});

at("show-key").addEventListener("change", () => { at("key").type = at("show-key").checked ? "text" : "password"; });

at("leave").addEventListener("click", () => {
  sessionStorage.removeItem(KEPT);
  person = null;
  location.reload();
});

// Reads again, unless that is under way.
async function look() {
  if (person === null || asked === Infinity) return false;
  asked = Infinity;
  try { return await person.look(); } finally { asked = Date.now(); }
}

at("refresh").addEventListener("click", async () => {
  const here = person;
  if (await look() && here === person) say(`This is what the desk had on ${momentWords(person.moment())}.`, "good");
});

document.addEventListener("visibilitychange", () => { if (!document.hidden) look(); });

// The countdown of the cutoff, and the questions that the page asks by itself.
setInterval(() => {
  if (person === null) return;
  const now = person.now();
  for (const left of document.querySelectorAll(".left")) {
    const words = cutoffWords(left.dataset.until, now);
    if (left.textContent !== words) left.textContent = words;
  }
  if (person instanceof Office && !person.busy) person.show();
  const pause = person.pause();
  if (pause > 0 && !document.hidden && Date.now() - asked >= pause * 1000) look();
}, 1000);

// A link to another meeting, opened where this page is open already.
window.addEventListener("hashchange", () => {
  const meeting = linked();
  if (meeting === null || meeting === person?.meeting) return;
  at("meeting").value = meeting;
  if (person === null) return;
  out("", person.key);
  enterOnce({ ...last, meeting });
});

fetch("settings.json", { cache: "no-store", credentials: "omit", redirect: "error" }).then(async (reply) => {
  if (!reply.ok) return;
  Object.assign(settings, readSettings(await reply.text()));
  if (settings.company !== undefined) at("company").textContent = settings.company;
  if (settings.contact !== undefined) at("contact").replaceChildren("Questions: ", own(settings.contact));
  person?.show();
}).catch(() => { /* The page goes on without settings. */ });

useZone(zone);
at("old").remove();
at("enter").hidden = false;
const meeting = linked() ?? last.meeting ?? "";
if (isName(meeting)) at("meeting").value = meeting;
if (typeof last.key === "string" && isName(meeting)) {
  at("keep").checked = true;
  at("key").value = last.key;
  enterOnce({ ...last, meeting });
} else at("key").focus();
