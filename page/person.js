// What the pages of a party and of the secretary share: the clock, reading again, and what is said where that fails.

import { wallClock, momentText, askAgain } from "./words.js";
import { sentence } from "./refusals.js";
import { showItems, say } from "./forms.js";

export class Person {
  // `way` has the desk, the key, the meeting, the zone and the settings; `out`, which shows the way in again with a sentence; and
  // `keep`, which keeps what the person typed where that was asked for.
  constructor(way) {
    Object.assign(this, { notice: null, busy: false, pending: null, old: false, gone: false, lists: new Map() }, way);
  }

  now() { return wallClock(this.zone, this.desk.now()); }

  moment() { return momentText(this.now()); }

  ask(verb, body = null, key = this.key) { return this.desk.ask(key, this.meeting, verb, body); }

  // A person who went out may still have a request on its way.
  say(...words) { if (!this.gone) say(...words); }

  show() { if (!this.gone) showItems(document.getElementById("view"), this.items()); }

  // After how many seconds the page reads again by itself; 0 is never.
  pause() { return this.pending || !this.isWhole() ? 5 : askAgain(this.notice, this.now()); }

  // Reads again, by the timer or by the person, and says where that failed.
  async look() {
    if (this.busy) return false;
    if (this.pending) { await this.check(); return false; }
    const fault = await this.read();
    if (fault !== null && !this.isShut(fault)) {
      const what = this.isWhole() ? "What you see may be old." : "A part of this page could not be had yet.";
      this.say(`${what} ${sentence(fault, "notice")} The page asks again.`, "bad");
    }
    if (fault === null && this.old) this.say("The desk answers again. What you see is what it has now.", "good");
    this.old = fault !== null;
    return fault === null;
  }

  // Reads again after a request, and leaves what was said of it.
  async again() {
    const fault = await this.read();
    if (fault !== null) this.isShut(fault);
  }

  // Whether a read was refused: the key was replaced since. There is nothing more to ask with it, so the way in is shown.
  isShut(fault) {
    if (fault.is !== "refused") return false;
    this.out(`The desk took this key when you entered, and refuses it now. ${sentence(fault, "notice")}` +
      (this.pending ? " No reply had come to your last request: the page shows whether it stands once you enter again." : ""));
    return true;
  }
}
