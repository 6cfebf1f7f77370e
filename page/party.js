// The page of a member, proxy or representative.

import { MOST, WAYS, blocksOf, countRuns, runsWords, sharesWords, numberWords, momentNumber, momentWords, readNumber, stageOf, lastSession } from "./words.js";
import { stands, isName } from "./desk.js";
import { sentence, isUnknown } from "./refusals.js";
import { el, own, field, nameText, numberText, radios, value, button, form, select, section, group, part, titleOf, sure, longList, noticeList,
  stageItems } from "./forms.js";
import { Person } from "./person.js";
import { WORDS, voteItems, recordedItems } from "./ballots.js";
import { papers, ownNote, resultsSheet } from "./paper.js";

const runShares = (runs) => `${countRuns(runs) === 1 ? "share" : "shares"} ${runsWords(runs)}`;

const governed = (runs) => runs.length === 0 ? "no shares" : runShares(runs);

// A name said back before somebody is named. The secretary's settings name the chair.
const nameBack = (name, chair) => `${name} is ${name === chair ? "the chair of the meeting, as the secretary says on this page"
  : "a name that this desk does not check"}. Somebody must hold its key, or nobody can act for you.`;

export class Party extends Person {
  constructor(way, notice) {
    super({ self: "", mine: null, notes: [], stopped: false, rest: 2000, ...way, notice });
  }

  isWhole() { return this.mine !== null; }

  // Asks for the notice and the caller's own things, and shows what came. The reply that was no acceptance, or null.
  async read() {
    let fault = null;
    for (const verb of ["notice", "mine"]) {
      const reply = fault === null ? await this.ask(verb) : null;
      if (reply?.is === "ok") this[verb] = reply.value;
      else fault ??= reply;
    }
    this.show();
    return fault;
  }

  // Says what was done, and keeps it for the person's own note.
  done(words) {
    const moment = this.moment();
    this.notes.push([moment, words]);
    this.say(`${words} That was on ${momentWords(moment)}.`, "good");
  }

  // Sends a request. `done` words its reply.
  async act(verb, body, done) {
    if (this.busy) return;
    if (this.pending) return this.check();
    this.busy = true;
    this.say("Sending ..", "wait");
    const before = this.mine, reply = await this.ask(verb, body);
    this.busy = false;
    if (isUnknown(reply)) {
      this.pending = { verb, body: body ?? {}, before, said: sentence(reply, verb) };
      return this.check();
    }
    if (reply.is === "ok") this.done(done(reply.value));
    else this.say(sentence(reply, verb), "bad");
    await this.again();
  }

  // After a reply that did not come: asks whether the request stands. Nothing else is sent before that is known.
  async check() {
    const { verb, body, before, said } = this.pending;
    this.busy = true;
    this.say(`${said} The desk is asked what stands ..`, "unknown");
    const fault = await this.read();
    this.busy = false;
    if (fault !== null) {
      if (!this.isShut(fault)) this.say(`${said} The page goes on asking what stands, and sends nothing else.`, "unknown", button("Ask now", () => this.check()));
      return;
    }
    this.pending = null;
    const stood = stands(verb, body, before, this.mine);
    if (stood === true) this.done("No reply came, but it was done: the desk has it. Do not send it again.");
    else if (stood === false) this.say("No reply came, and it was not done. You can send it again.", "bad");
    else this.say("No reply came. Look below whether it stands, before you send it again.", "unknown");
    this.show();
  }

  // Sends casts one after another, with a bar and a stop. One that is refused for its own shares is left out, and any other refusal
  // ends the sending. `done` words that all are recorded.
  async cast(casts, done) {
    if (this.busy) return;
    if (this.pending) return this.check();
    Object.assign(this, { busy: true, stopped: false });
    const bar = el("progress", { max: String(casts.length), value: "0", "aria-label": "Votes sent" });
    const stop = button("Stop", () => { this.stopped = true; }, { id: "stop" });
    const tell = (words = "") => this.say(`${words} Sending ${casts.length === 1 ? "" : `${numberWords(casts.length)} votes, one after another `}..`.trim(), "wait",
      ...(casts.length === 1 && words === "" ? [] : [bar, stop]));
    tell();
    const before = this.mine, left = [];
    let sent = 0, end = null;
    for (const cast of casts) {
      const reply = await this.surely(cast, before, tell);
      if (reply?.is === "ok") bar.value = sent += 1;
      else if (reply !== null && [25, 33, 34].includes(reply.code)) left.push([cast, reply]);
      else {
        end = reply;
        break;
      }
    }
    // What is said then is said of a page that shows it.
    if (!this.pending) await this.again();
    this.busy = false;
    if (sent === casts.length) this.done(done());
    else {
      const words = [...left.slice(0, 3).map(([{ member }, reply]) => `${casts.length === 1 ? "" : `Not taken on shares of ${member}. `}${sentence(reply, "cast")}`),
        left.length > 3 ? `${left.length - 3} more were not taken.` : "", end === null ? "" : sentence(end, "cast"),
        this.stopped ? "You stopped it: vote again to send the rest." : ""];
      const some = casts.length === 1 ? "" : `${numberWords(sent)} of ${numberWords(casts.length)} votes were recorded.`;
      if (sent > 0) this.done(some);
      this.say([some, ...words].filter((each) => each !== "").join(" "), "bad");
    }
    if (this.pending) await this.check();
  }

  // The reply to a cast, once it is known. After one that did not come the own things say whether the cast stands, and where it does
  // not, it is sent again. null where the person stopped it.
  async surely(body, before, tell) {
    while (!this.stopped) {
      const reply = await this.ask("cast", body);
      if (reply.is !== "fault" || reply.what === 413) return reply;
      // The front takes so many requests a second, and after a pause it takes more.
      if (reply.what !== 429) tell(`${sentence(reply, "cast")}${isUnknown(reply) ? " The desk is asked what stands." : ""}`);
      if (isUnknown(reply)) {
        this.pending = { verb: "cast", body, before, said: sentence(reply, "cast") };
        const fault = await this.readOn();
        if (fault !== null) return fault.is === "refused" ? fault : null;
        this.pending = null;
        tell();
        if (stands("cast", body, before, this.mine)) return { is: "ok" };
      } else {
        await this.pauseFor(this.rest);
        tell();
      }
    }
    return null;
  }

  pauseFor(time) { return new Promise((end) => setTimeout(end, time)); }

  // Reads until that is answered, or the person stopped it.
  async readOn() {
    for (;;) {
      const fault = await this.read();
      if (fault === null || fault.is === "refused" || this.stopped) return fault;
      await this.pauseFor(this.rest);
    }
  }

  items() {
    const { notice, mine } = this;
    const now = this.now(), session = lastSession(notice);
    const top = notice.resolutions.filter((resolution) => stageOf(resolution) === "open");
    const rest = notice.resolutions.filter((resolution) => !top.includes(resolution));
    const isNear = now > momentNumber(session.appointed) - 3600;
    const asked = mine !== null && !mine.present && isNear && notice.resolutions.some((resolution) => stageOf(resolution) !== "declared");
    return [
      ...(asked ? [section("here", "Are you here?", session.number, () => [this.attend()])] : []),
      ...top.map((resolution) => this.resolution(resolution)),
      section("notice", "Notice of the meeting", [{ ...notice, resolutions: null }, this.settings], () => [noticeList(notice, this.settings, this.now())]),
      ...rest.map((resolution) => this.resolution(resolution)),
      ...(mine === null ? [section("you", "You at this meeting", null, () => [el("p", {},
        "What the desk has of you is asked for, and shown once it comes.")])] : [
        section("you", "You at this meeting", [mine.row, mine.present, asked, notice.register, session.number], () => this.you(asked)),
        section("given", "Your proxies", [mine.given, mine.row, session.number, this.settings.chair], () => this.given()),
        section("received", "Appointments of you as proxy", [mine.received, session.number], () => this.received()),
        section("persons", "Representatives of a corporation", [mine.persons, mine.authorised], () => this.persons()),
        papers([["own-note", "Show my own note", () => ownNote(this)], ["sheet", "Show the results on a sheet", () => resultsSheet(this.notice, this.settings)]])]),
    ];
  }

  resolution(resolution) {
    const { mine, notice } = this;
    const { number } = resolution, stage = stageOf(resolution);
    const { opened, number: session } = lastSession(notice);
    const parts = [part(`stage-${number}`, resolution, () => stageItems(resolution, stage))];
    if (mine !== null && stage === "no poll" && opened !== null) {
      const demanded = mine.demands.includes(number);
      parts.push(part(`demands-${number}`, [demanded, session], () => [
        demanded ? el("p", {}, "You have demanded a poll. The secretary orders it where enough have demanded it." +
          (session === 1 ? "" : " A demand of an earlier session does not count in this one: demand it again.")) : null,
        demanded && session === 1 ? null : button(`Demand a poll on resolution ${number}`, () => this.act("demand", { resolution: number },
          () => `Your demand of a poll on resolution ${number} is noted.`), { id: `demand-${number}` })]));
    }
    if (mine !== null && stage !== "no poll") {
      parts.push(...(stage === "open" ? voteItems(this, resolution, blocksOf(mine, resolution, notice)) : recordedItems(this, resolution)));
    }
    return group(`resolution-${number}`, titleOf(resolution), parts);
  }

  attend() {
    return button("I am present", () => this.act("attend", null, () => "You are marked as present."), { id: "attend" });
  }

  you(asked) {
    const { row, present } = this.mine;
    const made = [];
    if (row === null) {
      made.push(el("p", {}, this.notice.register ? "You have no entry in the register of members for this meeting."
        : "The register of members is not loaded yet, so your holding is not known here."));
    } else {
      const kind = { individual: "an individual", corporation: "a corporation", treasury: "the holder of treasury shares" }[row.kind];
      made.push(el("p", {}, "The register has you as ", own(row.name), `, ${kind}, with ${sharesWords(row.shares)}, ${numberWords(row.paid)} pence paid on each.`));
      if (row.kind === "corporation") made.push(el("p", {}, "A corporation votes by a representative. Authorise one below."));
      if (row.kind === "treasury") made.push(el("p", {}, "Treasury shares give no vote."));
      if (row.kind === "individual") {
        const self = nameText(this.self);
        self.addEventListener("input", () => {
          this.self = self.value.trim().toUpperCase();
          this.keep({ self: this.self });
        });
        made.push(field("self", "Your short name", self,
          "As the secretary gave it with your key, such as M1. Your own shares are voted under it. A key file has it in its second line."));
      }
    }
    if (!present && lastSession(this.notice).number > 1) made.push(el("p", {}, "Who is present is marked anew in each session."));
    if (present) made.push(el("p", {}, "You are marked as present."));
    else if (!asked) made.push(this.attend());
    return made;
  }

  instructionWords(instructions) {
    return instructions.map((way, place) => `${place + 1}: ${WORDS[way].toLowerCase()}`).join("; ");
  }

  // An appointment that the caller gave, with what the desk has recorded of it.
  givenWords({ number, proxy, from, to, received, ended, use, instructions }) {
    const counts = ended !== null ? `Ended on ${momentWords(ended)}.` : use === "meeting" ? `It counts ${this.lastWords("for the meeting")}.`
      : `It came too late ${this.lastWords("for the meeting")} and counts for later polls only.`;
    return `Number ${number}: ${proxy}, over ${this.rangeWords({ from, to })}, received on ${momentWords(received)}. ${counts} ` +
      `Instructions: ${this.instructionWords(instructions)}.`;
  }

  given() {
    const { given, row } = this.mine, { chair } = this.settings;
    const made = [given.length === 0 ? el("p", {}, "You have appointed nobody.") : el("ul", {}, ...given.map((item) => el("li", {}, this.givenWords(item), " ",
      item.ended === null ? button(`End number ${item.number}`, () => this.act("end", { number: item.number },
        () => `Appointment ${item.number} is ended. An earlier one does not come back.`), { id: `end-${item.number}` }) : null)))];
    const offered = chair !== undefined && chair !== this.self, proxy = nameText();
    const named = field("proxy", "Short name of the proxy", proxy, "The secretary gives the names, such as P. A proxy needs a key of its own.");
    const whom = offered ? radios("whom", "Whom you appoint", [["chair", `The chair of the meeting, ${chair}`], ["other", "Somebody else"]], "chair") : null;
    named.hidden = offered;
    whom?.addEventListener("change", () => { named.hidden = value(whom) === "chair"; });
    const over = radios("over", "Over which shares",
      [["all", row === null ? "All my shares" : `All my ${sharesWords(row.shares)}`], ["range", "Some of them"]], "all");
    const from = numberText(), to = numberText();
    const range = el("div", { class: "split", hidden: true }, field("from", "From share", from), field("to", "To share", to));
    over.addEventListener("change", () => { range.hidden = value(over) !== "range"; });
    const choices = this.notice.resolutions.map((resolution) => [select(["free", ...WAYS].map((way) => [way, WORDS[way]]), "free"), resolution]);
    made.push(form("appoint", () => {
      const name = offered && value(whom) === "chair" ? chair : proxy.value.trim().toUpperCase();
      if (!isName(name)) return this.say("Give the short name of the proxy: 1 to 16 capitals and digits.", "bad"), proxy.focus();
      let shares = [1, row === null ? MOST : row.shares];
      if (value(over) === "range") {
        shares = [readNumber(from.value), readNumber(to.value)];
        if (shares.includes(null) || shares[0] < 1 || shares[0] > shares[1]) return this.say("Give the first and the last share, in digits.", "bad"), from.focus();
      }
      const instructions = choices.map(([choice]) => choice.value);
      const body = { proxy: name, from: shares[0], to: shares[1], instructions };
      const made = ({ number, use }) => `Appointment ${number} of ${name} is made. ` +
        (use === "meeting" ? `It counts ${this.lastWords("for the meeting")}.` : "It came after the cutoff, and counts for later polls only.");
      sure(`Appoint ${name} as your proxy?`, [nameBack(name, chair),
        `It would act on ${this.rangeWords(body)}. Instructions: ${this.instructionWords(instructions)}.`], `Appoint ${name}`, () => this.act("appoint", body, made));
    }, el("h3", {}, "Appoint a proxy"), whom, named,
    over, range, ...choices.map(([choice, resolution]) => field(`instruction-${resolution.number}`, [titleOf(resolution)[0], own(resolution.text)], choice)),
    el("p", { class: "help" }, "The last appointment that counts governs a share. You may still vote yourself: your own vote comes first."),
    el("button", { type: "submit", id: "appoint-send" }, "Appoint")));
    return made;
  }

  // What is told of the meeting is told of its last session.
  lastWords(words) {
    const { number } = lastSession(this.notice);
    return number === 1 ? words : words.replace("the meeting", `session ${number}`);
  }

  rangeWords({ from, to }) { return from === 1 && to === MOST ? "all your shares" : runShares([[from, to]]); }

  received() {
    const { received } = this.mine;
    if (received.length === 0) return [el("p", {}, "Nobody has appointed you.")];
    const words = (item) => `By ${item.member}, received on ${momentWords(item.received)}. ` +
      `${this.lastWords("For the meeting")} it governs ${governed(item.governs)}. ` +
      item.polls.map(({ resolution, governs }) => `For the later poll on resolution ${resolution}: ${governed(governs)}. `).join("") +
      `Instructions: ${this.instructionWords(item.instructions)}.`;
    return longList(this.lists, "received", received, words, (item) => el("li", {}, words(item)));
  }

  persons() {
    const { persons, authorised } = this.mine;
    const person = nameText();
    return [
      authorised.length === 0 ? null : el("ul", {}, ...authorised.map(({ corporation, shares }) => el("li", {},
        shares === 0 ? `${corporation} has authorised you. The register gives it no votes, or is not loaded yet.` : `${corporation} has authorised you, for ${sharesWords(shares)}.`))),
      persons.length === 0 ? null : el("p", {}, `You have authorised ${persons.join(", ")}.`),
      form("authorise", () => {
        const name = person.value.trim().toUpperCase();
        if (!isName(name)) return this.say("Give the short name of the person: 1 to 16 capitals and digits.", "bad"), person.focus();
        sure(`Authorise ${name} to act for you?`, [nameBack(name), "An authority can not be taken back for this meeting."], `Authorise ${name}`,
          () => this.act("authorise", { person: name }, () => `${name} is authorised.`));
      }, field("person", "Authorise this person to act for you", person, "Only for a corporation. It can not be taken back for this meeting."),
      el("button", { type: "submit", id: "authorise-send" }, "Authorise")),
    ];
  }
}
