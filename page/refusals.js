// One sentence for each refusal and failure, with what to do. Where the cause depends on the request, `by` has it by verb.

import { READS } from "./desk.js";

export const REFUSALS = {
  1: { name: "Key", say: "The desk does not know this key: look at it letter by letter, or ask the secretary for a new one." },
  2: { name: "Route", say: "A meeting has no such name: it is 1 to 16 capitals and digits, as in the notice." },
  3: { name: "Method", say: "The page and the desk do not fit together: tell the secretary that the page has to be renewed." },
  4: { name: "TooLarge", say: "This is too long for the desk: shorten the texts, or close this browser's other windows and try again." },
  5: { name: "Unreadable", say: "The desk could not read this: look for names in small letters, dates before 1900 and texts above 200 characters." },
  6: { name: "OfficeOnly", say: "Only the secretary can do this: ask the secretary." },
  7: { name: "PartyOnly", say: "The secretary's key can not do this: use the key of a member, proxy or representative." },
  8: { name: "NoMeeting", say: "No meeting of this name has been called: look at the name in the notice." },
  9: { name: "Exists", say: "This was done before: nothing more is to do.",
    by: { call: "A meeting of this name was called before: take another name.",
      start: "The voting on this resolution was started before: nothing more is to do." } },
  10: { name: "ShortNotice", say: "The notice is too short: 14 clear days are needed, and 21 for the annual meeting of a public company, so choose a later day." },
  11: { name: "NoResolution", say: "The meeting has no resolution of this number: load the page again." },
  12: { name: "BadRange", say: "These are no shares: the first is at least 1, and the last is not below the first." },
  13: { name: "SelfNamed", say: "You named yourself: name somebody else.",
    by: { appoint: "You named yourself as proxy: name somebody else, or vote yourself.",
      authorise: "You named yourself as representative: name somebody else." } },
  14: { name: "BadInstructions", say: "Each resolution needs one instruction: load the page again, and choose one for each." },
  15: { name: "TooMany", say: "The desk takes no more of these: ask the secretary.",
    by: { call: "This desk holds 100 meetings, and takes no more: start a new desk.",
      adjourn: "The meeting was held in ten sessions, and takes no more: call another meeting.",
      appoint: "You gave 256 appointments for this meeting, and the desk takes no more: those that stand still count.",
      authorise: "You authorised 64 persons for this meeting, and the desk takes no more: ask one of those to act.",
      cast: "You voted 1,024 times on this resolution, and the desk takes no more: your last votes count.",
      instructed: "You voted 1,024 times on this resolution, and the desk takes no more: your last votes count." } },
  16: { name: "NoSuchNumber", say: "You gave no appointment of this number: look at the list of your appointments." },
  17: { name: "AlreadyEnded", say: "This appointment was ended before: nothing more is to do." },
  18: { name: "NoRegister", say: "The register of members is not loaded yet: the secretary loads it after its record moment, and then this can be done." },
  19: { name: "OtherRecord", say: "This is not the record moment of the meeting: give it as it stands in the notice." },
  20: { name: "Opened", say: "The meeting was opened before: go on with the polls." },
  21: { name: "NotOpened", say: "The meeting is not opened yet: wait until the secretary has opened it.",
    by: { adjourn: "The last session is not opened yet, and the meeting is adjourned from an opened one: look whether it was adjourned before." } },
  22: { name: "Early", say: "It is too early for this: wait for the time in the notice, and look at the clock.",
    by: { adjourn: "The time of the next session is past already: choose a later one.",
      open: "It is too early to open: wait for the appointed time by the clock of the desk's machine.",
      order: "The time for the poll is past already: choose a later one.",
      start: "It is too early to start: wait for the time that was ordered." } },
  23: { name: "NoQuorum", say: "There is no quorum: mark at least two persons as present who are members, proxies that govern shares, or representatives." },
  24: { name: "NotPresent", say: "You are not marked as present: press “I am present” first." },
  25: { name: "NoRight", say: "You have no right to vote these shares: look at your name in the register, and ask the secretary.",
    by: { demand: "You may not demand a poll: you are no member, no representative, and govern no shares at this meeting.",
      cast: "You may not vote these shares in this way: a corporation votes by its representative, a member by its own key." } },
  26: { name: "PollOrdered", say: "A poll on this resolution was ordered before: wait for the voting." },
  27: { name: "NoPoll", say: "No poll on this resolution was ordered yet: it is ordered first." },
  28: { name: "DemandTooSmall", say: "No demand reaches five members or a tenth of the shares: let the chair order the poll, or wait for more demands." },
  29: { name: "PollNotOpen", say: "The voting on this resolution has not started: wait until it is open." },
  30: { name: "PollClosed", say: "The voting on this resolution is closed: votes recorded before that count." },
  31: { name: "NotClosed", say: "The voting is still open: close it first, and then declare." },
  32: { name: "Declared", say: "The result was declared before: it stands in the notice." },
  33: { name: "NotYours", say: "Some of these shares are not yours to vote: look at what you may vote, which this page has asked for again.",
    by: { instructed: "No shares with an instruction are yours on this resolution: vote on them freely where you may." } },
  34: { name: "AgainstInstruction", say: "The member instructed you otherwise: vote as instructed." },
  35: { name: "PollRunning", say: "A poll runs: close the voting first, and then adjourn the meeting." },
};

// A fault that is no refusal. `sure` says that the request was not done; of any other that is unknown, unless it only read.
export const FAULTS = {
  Store: { sure: false, say: "The desk's file could not be read or written: tell the secretary to look at the disk and the desk at once." },
  Memory: { sure: true, say: "The desk's machine had no memory left, and nothing was done: wait a moment, and try again." },
  none: { sure: false, say: "No reply came." },
  foreign: { sure: false, say: "The reply was not the desk's." },
  413: { sure: true, say: "This was too long, and nothing was done: shorten the texts." },
  429: { sure: true, say: "Too many requests came from here, and nothing was done: wait a minute, and try again." },
  502: { sure: false, say: "The desk does not answer: the secretary may have stopped it for a while." },
  504: { sure: false, say: "The desk took too long to answer." },
};

// The sentence for a reply that is not an acceptance.
export function sentence(reply, verb) {
  if (reply.is === "refused") {
    const row = REFUSALS[reply.code];
    if (!row) return `The desk refused this for a reason that this page does not know (${reply.code}): tell the secretary.`;
    return row.by?.[verb] ?? row.say;
  }
  const { sure, say } = FAULTS[reply.what] ?? FAULTS.foreign;
  return say + (sure || READS.includes(verb) ? "" : " It is unknown whether this was done.");
}

// Whether a request may have been done though no acceptance came.
export function isUnknown(reply) {
  return reply.is === "fault" && !(FAULTS[reply.what] ?? FAULTS.foreign).sure;
}

// What each of the office's requests is refused as once it has been done. After a lost reply these mean that it was done.
const DONE = { call: [9], open: [20], order: [26], start: [9], close: [30], declare: [32], presence: [] };
export function meansDone(verb, reply) {
  return reply.is === "refused" && (DONE[verb] ?? []).includes(reply.code);
}
