// The page of the company secretary, who has the office's key.

import { momentNumber, momentText, momentWords, dayWords, fullMoment, lengthWords, clearDays, several, inZone, stageOf, checkCall, namesIn,
  sessionsOf, lastSession, runningPolls } from "./words.js";
import { readKey, isName, stoodByNotice } from "./desk.js";
import { sentence, isUnknown, meansDone } from "./refusals.js";
import { el, own, field, text, nameText, momentInput, radios, value, button, form, select, section, group, part, titleOf, sure, longList,
  resultWithButton, noticeList, stageItems } from "./forms.js";
import { Person } from "./person.js";
import { papers, resultsSheet, minutesDraft } from "./paper.js";

// What stands in the way of the next step, in words, or null where it can be taken.
export function hindrance(step, notice, resolution, now) {
  if (step === "open") {
    if (!notice.register) return "The register is not loaded yet. Stop the desk, load it, and start the desk again.";
    const { appointed } = lastSession(notice);
    return momentNumber(appointed) > now ? `It can be opened from ${momentWords(appointed)}.` : null;
  }
  if (step === "adjourn") {
    if (sessionsOf(notice).length >= 10) return "The meeting was held in ten sessions, and takes no more.";
    const running = runningPolls(notice);
    return running.length > 0 ? `It can be adjourned once the voting is closed on resolution${running.length > 1 ? "s" : ""} ${running.join(", ")}.` : null;
  }
  if (step === "start" && momentNumber(resolution.poll.take) > now) return `It can be started from ${momentWords(resolution.poll.take)}.`;
  return null;
}

export class Office extends Person {
  // `seen` is what the notice was the last time: "yes", "none" (no such meeting) or null, not known. `told` has the results that were
  // declared from here, which are shown without a second key too.
  constructor(way) {
    super({ second: null, seen: null, files: 0, names: [], marked: [], told: new Map(), ...way });
  }

  isWhole() { return this.second === null || this.seen !== null; }

  pause() {
    if (this.second === null) return 0;
    return this.seen === "none" && !this.pending ? 60 : super.pause();
  }

  // Asks for the notice with the second key, and shows it. The reply that was neither a notice nor that there is none, or null.
  async read() {
    const reply = this.second === null ? null : await this.ask("notice", null, this.second);
    const none = reply?.is === "refused" && reply.code === 8;
    if (reply?.is === "ok") {
      // Who is present is marked anew in each session.
      if (this.notice !== null && lastSession(this.notice).number !== lastSession(reply.value).number) this.marked = [];
      Object.assign(this, { notice: reply.value, seen: "yes" });
    } else if (none) Object.assign(this, { notice: null, seen: "none" });
    else if (reply?.is === "refused") {
      Object.assign(this, { notice: null, seen: null, second: null });
      this.keep({ second: null });
    }
    this.show();
    return reply?.is === "ok" || none ? null : reply;
  }

  async look() {
    if (this.second !== null || this.pending) return super.look();
    this.say("Without a second key this page can not read how far the meeting has got.", "wait");
    this.show();
    return false;
  }

  // The second key alone was refused: the page goes on without it.
  isShut(fault) {
    if (fault.is !== "refused") return false;
    this.say("The desk gives no notice for the second key: it was replaced, or it is not the key of a party. Give another one below.", "bad");
    return true;
  }

  // Sends a step of the meeting. `done` says that it is done.
  async act(verb, body, done) {
    if (this.busy) return;
    if (this.pending) return this.check();
    this.say("Sending ..", "wait");
    await this.send({ verb, body, done }, false);
  }

  async send({ verb, body, done }, again) {
    this.busy = true;
    const reply = await this.ask(verb, typeof body === "function" ? body() : body);
    this.busy = false;
    await this.heard(reply, { verb, body, done }, again);
  }

  // A reply to a step that was sent for the first time, or again after a reply that did not come.
  async heard(reply, { verb, body, done }, again) {
    if (reply.is === "refused" && reply.code === 1) return super.isShut(reply);
    if (isUnknown(reply)) {
      this.pending = { verb, body, done, said: sentence(reply, verb) };
      return this.check();
    }
    this.pending = null;
    if (reply.is === "ok") this.keepResult(verb, body, reply.value);
    if (reply.is === "ok" || again && meansDone(verb, reply)) this.say(reply.is === "ok" ? done : `It was done the first time. ${done}`, "good");
    else this.say(sentence(reply, verb), "bad");
    await this.read();
  }

  // After a reply that did not come: asks the notice with the second key. Without one, or where a notice does not tell, the
  // same is sent again: the office's requests are done once, and a refusal then says that the first was done.
  async check() {
    const { verb, body, done, said } = this.pending;
    const resend = button("Send the same again", () => this.busy || this.send({ verb, body, done }, true));
    const bySending = (words) => this.say(`${said} ${words}Sending the same again does no harm: it is done once.`, "unknown", resend);
    if (this.second === null || verb === "presence") return bySending("");
    this.busy = true;
    this.say(`${said} The desk is asked what stands ..`, "unknown");
    const fault = await this.read();
    this.busy = false;
    if (fault?.is === "refused") return bySending("The second key was replaced since. ");
    if (fault !== null) return this.say(`${said} The notice can not be had. The page goes on asking.`, "unknown", button("Ask now", () => this.check()), resend);
    this.pending = null;
    const stood = stoodByNotice(verb, typeof body === "function" ? body() : body ?? {}, this.notice);
    if (stood) this.say(`No reply came, but it was done. ${done}`, "good");
    else this.say("No reply came, and it was not done. You can send it again.", "bad");
  }

  // The last result is told once: it is shown even without a second key.
  keepResult(verb, body, reply) {
    if (verb === "declare") this.told.set(body.resolution, reply);
    if (verb === "adjourn") this.marked = [];
    if (verb === "presence" && !this.marked.includes(body.party)) this.marked.push(body.party);
  }

  items() {
    const { notice, seen } = this;
    const second = section("second", "Second key", [this.second !== null, seen], () => this.secondKey());
    const call = section("call", `Call the meeting ${this.meeting}`, seen, () => this.call());
    const presence = group("presence", "Who is present", [part("mark", null, () => this.mark()),
      part("names-read", [this.files, this.marked], () => this.present())]);
    if (seen === "none") return [call, second];
    if (seen === null) return [second, call, presence, section("blind", "Steps of the meeting", [...this.told], () => this.blind())];
    const now = this.now(), last = lastSession(notice);
    const [step, title] = last.opened !== null ? ["adjourn", "Adjourn the meeting"]
      : ["open", last.number === 1 ? "Open the meeting" : `Open session ${last.number}`];
    const steps = section(step, title, [hindrance(step, notice, null, now), last], () => step === "open" ? this.open() : this.adjourn());
    const resolutions = notice.resolutions.map((resolution) => {
      const stage = stageOf(resolution), wait = stage === "ordered" ? hindrance("start", notice, resolution, now) : null;
      return section(`resolution-${resolution.number}`, titleOf(resolution), [resolution, last.opened, wait], () => this.resolution(resolution, stage, wait));
    });
    return [section("notice", "Notice of the meeting", [{ ...notice, resolutions: null }, this.settings], () => [noticeList(notice, this.settings, now)]), presence,
      ...(step === "open" ? [steps, ...resolutions] : [...resolutions, steps]),
      papers([["sheet", "Show the results on a sheet", () => resultsSheet(this.notice, this.settings)],
        ["minutes", "Show a draft of minutes", () => minutesDraft(this.notice, this.settings)]]), second];
  }

  secondKey() {
    if (this.second !== null) return [el("p", {}, "The page asks for the notice with it, and shows each step when it can be taken.")];
    const key = text("", { type: "password", autocapitalize: "off", maxlength: "200" });
    const file = el("input", { type: "file", accept: ".key,.txt,text/plain" });
    const use = async (typed) => {
      const found = readKey(typed);
      if (found === null) return this.say("This is no key, and no file with one key.", "bad");
      this.second = found.key;
      this.say("The notice is asked for with this key.", "wait");
      const fault = await this.read();
      if (fault === null) {
        this.keep({ second: found.key });
        this.say("", "good");
      } else if (!this.isShut(fault)) this.say(sentence(fault, "notice"), "bad");
    };
    file.addEventListener("change", async () => { if (file.files[0]) use(await file.files[0].text()); });
    return [el("p", {}, "The secretary's key can not read. With a second key the page sees how far the meeting has got, and says after a lost " +
      "reply whether a step was done. Make it for a party of its own, such as LOOK, that stands in no register."),
    form("second-form", () => use(key.value), field("second-key", "Second key", key), field("second-file", "Or its key file", file),
      el("button", { type: "submit", id: "second-send" }, "Use this key"))];
  }

  call() {
    const company = select([["private", "Private"], ["public", "Public"]], "private");
    const kind = select([["general", "General meeting"], ["annual", "Annual general meeting"]], "general");
    const given = el("input", { type: "date", min: "1900-01-01", max: "2999-12-31", value: momentText(this.now()).slice(0, 10) });
    const appointed = momentInput(), record = momentInput();
    const list = el("ol", { class: "resolutions" }), checked = el("div", { id: "call-sure" });
    const add = () => {
      const number = list.children.length + 1;
      const majority = select([["ordinary", "Ordinary: more than half"], ["special", "Special: three quarters"]], "ordinary");
      list.append(el("li", {}, field(`call-text-${number}`, `Words of resolution ${number}`, text("", { maxlength: "200" })),
        field(`call-kind-${number}`, `Kind of resolution ${number}`, majority)));
    };
    add();
    const read = () => ({ meeting: this.meeting, company: company.value, kind: kind.value, given: given.value, appointed: fullMoment(appointed.value) ?? "",
      record: fullMoment(record.value) ?? "", resolutions: [...list.children].map((item) => [item.querySelector("select").value, item.querySelector("input").value.trim()]) });
    const send = () => {
      const typed = read();
      const { errors, warnings } = checkCall(typed, this.now());
      checked.replaceChildren();
      document.querySelectorAll("#call [aria-invalid]").forEach((input) => input.removeAttribute("aria-invalid"));
      if (errors.length > 0) {
        for (const error of errors) document.getElementById(error.field)?.setAttribute("aria-invalid", "true");
        this.say(errors.map((error) => error.text).join(" "), "bad");
        return document.getElementById(errors[0].field)?.focus();
      }
      this.say("Look at the call once more before it is sent.", "wait");
      const { meeting, ...body } = typed;
      const heading = el("h3", { tabindex: "-1" }, "A call can not be taken back");
      const shown = JSON.stringify(body);
      checked.replaceChildren(heading,
        ...(warnings.length > 0 ? [el("p", {}, "Look at this first:"), el("ul", { class: "warnings" }, ...warnings.map((words) => el("li", {}, words)))] : []),
        el("p", {}, `${meeting}, ${body.kind === "annual" ? "an annual general meeting" : "a general meeting"} of a ${body.company} company, on ${momentWords(body.appointed)}. ` +
          `Notice is taken as received on ${dayWords(body.given)}, with ${clearDays(body.given, body.appointed)} clear days. The register is taken as of ${momentWords(body.record)}.`),
        el("ol", {}, ...body.resolutions.map(([majority, words]) => el("li", {}, `${words} (${majority})`))),
        button(warnings.length > 0 ? "Call the meeting in spite of this" : "Call the meeting", () => {
          if (JSON.stringify((({ meeting: _, ...rest }) => rest)(read())) !== shown) return this.say("The form was changed since. Check the call again.", "bad");
          this.act("call", body, `The meeting ${meeting} is called.`);
        }, { id: "call-send" }));
      heading.focus();
    };
    const load = "Public holidays are loaded before the call, since the last moment for proxies is counted by working days.";
    return [this.seen === "none" ? null : el("p", {}, "Without a second key the page can not see whether this meeting is called already."),
      el("p", { class: "help" }, load),
      form("call-form", send, field("call-company", "Company", company), field("call-meeting-kind", "Kind of meeting", kind),
        field("call-given", "Day of notice", given, "The day on which it is taken as received (section 1147), which may lie ahead."),
        field("call-appointed", inZone("Time of the meeting"), appointed),
        field("call-record", inZone("Record moment of the register"), record,
          "The register is taken as it is then. It is loaded after that and before the meeting."),
        el("h3", {}, "Resolutions"), el("p", { class: "help" }, "A resolution passes as special only if the call names it so."), list,
        el("p", { class: "buttons" }, button("One more resolution", () => { add(); list.lastElementChild.querySelector("input").focus(); }, { id: "call-add" }),
          button("Remove the last one", () => { if (list.children.length > 1) list.lastElementChild.remove(); }, { id: "call-remove" })),
        el("button", { type: "submit", id: "call-check" }, "Check the call")), checked];
  }

  mark() {
    const name = nameText(), file = el("input", { type: "file", accept: ".txt,.csv,text/plain,text/csv" });
    file.addEventListener("change", async () => {
      const names = file.files[0] ? namesIn(await file.files[0].text()) : [];
      if (names === null) return this.say("This is the list of keys. Take parties.txt or register.csv.", "bad");
      Object.assign(this, { files: this.files + 1, names });
      this.say(`${several(names.length, "name")} are read.`, "good");
      this.show();
    });
    return [form("presence-form", () => {
      const party = name.value.trim().toUpperCase();
      if (!isName(party)) return this.say("Give a short name: 1 to 16 capitals and digits.", "bad"), name.focus();
      this.isPresent(party);
    }, field("party", "Short name", name, "Look at the spelling: the desk marks any name, and a mark can not be taken back."),
    el("button", { type: "submit", id: "presence-send" }, "Mark as present")),
    field("names", "Names from a file, such as parties.txt or register.csv", file)];
  }

  isPresent(party) { this.act("presence", { party }, `${party} is marked as present.`); }

  // Those marked from this page, the last one first, and then the names of the file.
  present() {
    const named = new Map(this.names.map((each) => [each.party, each]));
    const marked = this.marked.map((party) => ({ name: "", ...named.get(party), party, here: true })).reverse();
    for (const { party } of marked) named.delete(party);
    const row = ({ party, name, here }) => el("li", {}, here ? `${party} is marked as present. `
      : button(`${party} is present`, () => this.isPresent(party), { id: `present-${party}` }), own(name));
    const all = [...marked, ...named.values()];
    return all.length === 0 ? [] : longList(this.lists, "present", all, ({ party, name }) => `${party} ${name}`, row);
  }

  open() {
    const wait = hindrance("open", this.notice, null, this.now());
    if (wait !== null) return [el("p", {}, wait)];
    const { number } = lastSession(this.notice);
    return [el("p", {}, number === 1 ? "A quorum has to be marked as present. From the opening on the register stays as it is."
      : "A quorum has to be marked as present anew, for this session."),
    button(number === 1 ? "Open the meeting" : `Open session ${number}`, () => this.act("open", null, "The meeting is opened."), { id: "open-send" })];
  }

  adjourn() {
    const wait = this.notice === null ? null : hindrance("adjourn", this.notice, null, this.now());
    if (wait !== null) return [el("p", {}, wait)];
    const appointed = momentInput();
    return [el("p", {}, "The next session needs a quorum of its own. Demands that are not met by then have to be made again."),
      form("adjourn-form", () => {
        const moment = this.laterMoment(appointed, "Give the time of the next session, which is still to come.");
        if (moment !== null) {
          sure("Adjourn the meeting?", [`The next session is on ${momentWords(moment)}. ${this.ahead(moment)}`,
            "An adjournment can not be taken back, and its time can not be changed. Until then no poll can be ordered."], "Adjourn the meeting",
          () => this.act("adjourn", { appointed: moment }, `The meeting is adjourned to ${momentWords(moment)}.`));
        }
      }, field("adjourn-appointed", inZone("Time of the next session"), appointed), el("button", { type: "submit", id: "adjourn-send" }, "Adjourn the meeting"))];
  }

  // The moment in a field, where it is still to come; else null, which is said.
  laterMoment(input, words) {
    const moment = fullMoment(input.value);
    if (moment !== null && momentNumber(moment) > this.now()) return moment;
    this.say(words, "bad");
    input.focus();
    return null;
  }

  ahead(moment) { return `That is in ${lengthWords(momentNumber(moment) - this.now())}.`; }

  orderForm(number) {
    const by = radios(`by-${number}`, "Who asks for it", [["chair", "The chair orders it"], ["demand", "On a demand that is reached"]], "chair");
    const when = radios(`when-${number}`, "When it is taken", [["now", "Now"], ["later", "At this time"]], "now");
    const take = momentInput();
    const later = el("div", { hidden: true }, field(`take-${number}`, inZone("Time of the poll"), take));
    when.addEventListener("change", () => { later.hidden = value(when) !== "later"; });
    return form(`order-${number}`, () => {
      const order = (moment) => this.act("order", () => ({ resolution: number, take: moment(), chair: value(by) === "chair" }),
        `A poll on resolution ${number} is ordered.`);
      // A poll that is taken now has a few seconds to reach the desk, since one before the order is refused.
      if (value(when) === "now") return order(() => momentText(this.now() + 5));
      const moment = this.laterMoment(take, "Give the time of the poll, which is still to come.");
      if (moment !== null) {
        sure(`Order a poll on resolution ${number} for later?`, [`It is to be taken on ${momentWords(moment)}. ${this.ahead(moment)}`,
          "An order can not be taken back, and its time can not be changed. A resolution has one poll, which can not be started before that time."],
        `Order the poll on resolution ${number}`, () => order(() => moment));
      }
    }, by, when, later, el("button", { type: "submit", id: `order-${number}-send` }, `Order a poll on resolution ${number}`));
  }

  // A step of a poll. `lines` are asked before one that can not be taken back.
  step(verb, number, words, done, ...lines) {
    const go = () => this.act(verb, { resolution: number }, `${done} ${number}.`);
    return button(`${words} ${number}`, lines.length === 0 ? go : () => sure(`${words} ${number}?`, lines, `${words} ${number}`, go), { id: `${verb}-${number}` });
  }

  steps(number) {
    return { start: this.step("start", number, "Start the voting on resolution", "The voting is open on resolution"),
      close: this.step("close", number, "Close the voting on resolution", "The voting is closed on resolution",
        "Nobody can vote on this resolution after that. The voting can not be opened again, and there is no second poll on it."),
      declare: this.step("declare", number, "Declare the result of resolution", "The result is declared of resolution",
        "The votes are counted once, and everybody is told the result. It can not be changed or taken back.") };
  }

  resolution(resolution, stage, wait) {
    const { number } = resolution;
    const made = stageItems(resolution, stage);
    const steps = this.steps(number);
    if (stage === "no poll") {
      made.push(lastSession(this.notice).opened === null ? el("p", {}, "A poll can be ordered once the meeting is opened.") : this.orderForm(number));
    }
    if (stage === "ordered") made.push(wait === null ? steps.start : el("p", {}, wait));
    if (stage === "open") made.push(steps.close);
    if (stage === "closed") made.push(steps.declare);
    return made;
  }

  // Without a second key: every step, and the desk refuses what can not be done.
  blind() {
    const number = text(this.blindNumber ?? "1", { inputmode: "numeric", maxlength: "2" });
    const place = el("div", {});
    const draw = () => {
      this.blindNumber = number.value;
      const resolution = Number(number.value);
      if (!Number.isInteger(resolution) || resolution < 1 || resolution > 50) return place.replaceChildren(el("p", {}, "Give a number from 1 to 50."));
      place.replaceChildren(this.orderForm(resolution), el("p", { class: "buttons" }, ...Object.values(this.steps(resolution))));
    };
    number.addEventListener("input", draw);
    draw();
    return [el("p", {}, "Without a second key every step is shown. The desk refuses what can not be done, and says why."),
      button("Open the meeting", () => this.act("open", null, "The meeting is opened."), { id: "open-send" }),
      ...this.adjourn(), field("blind-number", "Number of the resolution", number), place,
      ...[...this.told].map(([told, result]) => resultWithButton(told, "result as declared", null, result))];
  }
}
