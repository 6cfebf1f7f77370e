// Moments, days and shares: reading them, counting with them and saying them in words. Nothing here touches the page.

export const MOST = 1000000000000;

const DAY = /^(\d{4})-(\d{2})-(\d{2})$/;
const MOMENT = /^(\d{4}-\d{2}-\d{2})T(\d{2}):(\d{2})(?::(\d{2}))?$/;
const WEEK = ["Sunday", "Monday", "Tuesday", "Wednesday", "Thursday", "Friday", "Saturday"];
const YEAR = ["January", "February", "March", "April", "May", "June", "July", "August", "September", "October", "November",
  "December"];

// Days since 1970-01-01 of a text YYYY-MM-DD, or null where it is no day from 1900 to 2999.
export function dayNumber(text) {
  const found = DAY.exec(text);
  if (!found) return null;
  const [year, month, day] = found.slice(1).map(Number);
  if (year < 1900 || year > 2999) return null;
  const date = new Date(Date.UTC(year, month - 1, day));
  if (date.getUTCMonth() !== month - 1 || date.getUTCDate() !== day) return null;
  return date.getTime() / 86400000;
}

// Seconds since 1970-01-01T00:00:00 by the office's wall clock, or null where the text is no moment.
export function momentNumber(text) {
  const found = MOMENT.exec(text);
  const day = found ? dayNumber(found[1]) : null;
  if (day === null) return null;
  const [hour, minute, second] = [found[2], found[3], found[4] ?? "0"].map(Number);
  if (hour > 23 || minute > 59 || second > 59) return null;
  return day * 86400 + hour * 3600 + minute * 60 + second;
}

// The text YYYY-MM-DDThh:mm:ss of a number of seconds.
export const momentText = (number) => new Date(number * 1000).toISOString().slice(0, 19);

// A moment as a field of the page gives it, in the desk's form, or null.
export function fullMoment(text) {
  const number = momentNumber(text);
  return number === null ? null : momentText(number);
}

export function dayWords(text) {
  const number = dayNumber(text);
  if (number === null) return text;
  const date = new Date(number * 86400000);
  return `${WEEK[date.getUTCDay()]} ${date.getUTCDate()} ${YEAR[date.getUTCMonth()]} ${date.getUTCFullYear()}`;
}

// The zone whose wall clock the office goes by. Its name stands behind each moment, and behind the label of each field for one.
let zoneWords = "";
export function useZone(zone) {
  zoneWords = zone && ` (${zone.split("/").at(-1).replace(/_/g, " ")} time)`;
}
export const inZone = (words) => words + zoneWords;

export function momentWords(text) {
  const number = momentNumber(text);
  if (number === null) return text;
  const time = momentText(number).slice(11);
  return inZone(`${dayWords(text.slice(0, 10))} at ${time.endsWith(":00") ? time.slice(0, 5) : time}`);
}

// The wall clock of a zone, in seconds as momentNumber counts them.
export function wallClock(zone, instant = Date.now()) {
  const parts = new Intl.DateTimeFormat("en-GB", { timeZone: zone, hourCycle: "h23", year: "numeric", month: "2-digit",
    day: "2-digit", hour: "2-digit", minute: "2-digit", second: "2-digit" }).formatToParts(instant);
  const part = (type) => Number(parts.find((item) => item.type === type).value);
  return Date.UTC(part("year"), part("month") - 1, part("day"), part("hour"), part("minute"), part("second")) / 1000;
}

// A length of time by its two largest parts: "2 days 3 hours".
export function lengthWords(seconds) {
  const parts = [[Math.floor(seconds / 86400), "day"], [Math.floor(seconds / 3600) % 24, "hour"],
    [Math.floor(seconds / 60) % 60, "minute"], [seconds % 60, "second"]];
  const first = parts.findIndex(([number]) => number > 0);
  if (first < 0) return "no time";
  return parts.slice(first, first + 2).filter(([number]) => number > 0).map(([number, one]) => several(number, one)).join(" ");
}

export function cutoffWords(cutoff, now) {
  const left = momentNumber(cutoff) - now;
  if (cutoff.startsWith("1900-01-01T00:00:00")) return "There is no time for proxies before this.";
  return left >= 0 ? `That is in ${lengthWords(left)}.` : `That was ${lengthWords(-left)} ago.`;
}

// Days between the day of notice and that of the meeting, both excluded.
export const clearDays = (given, appointed) => dayNumber(appointed.slice(0, 10)) - dayNumber(given) - 1;

export const numberWords = (number) => String(number).replace(/\B(?=(\d{3})+$)/g, ",");
export const several = (number, one) => `${numberWords(number)} ${one}${number === 1 ? "" : "s"}`;
export const sharesWords = (number) => several(number, "share");

// A part of a whole in percent. It is cut after two decimals and not rounded, so that what falls short of a majority never reads as one.
export function percentWords(part, whole) {
  if (whole === 0) return "–";
  const cut = BigInt(part) * 10000n / BigInt(whole);
  return `${cut / 100n}.${String(cut % 100n).padStart(2, "0")}%`;
}

// A number of shares as it is typed, 0 to 10^12, with commas or spaces between groups. null where it is none.
export function readNumber(text) {
  const digits = text.replace(/[,\s]/g, "");
  if (!/^\d{1,13}$/.test(digits)) return null;
  const number = Number(digits);
  return number <= MOST ? number : null;
}

// Runs are lists of [from, to] in order, without overlaps.
export const countRuns = (runs) => runs.reduce((sum, [from, to]) => sum + to - from + 1, 0);

export function runsWords(runs) {
  if (runs.length === 0) return "none";
  return runs.map(([from, to]) => from === to ? numberWords(from) : `${numberWords(from)} to ${numberWords(to)}`).join(", ");
}

export function minusRuns(runs, [from, to]) {
  const left = [];
  for (const [first, last] of runs) {
    if (first < from) left.push([first, Math.min(last, from - 1)]);
    if (last > to) left.push([Math.max(first, to + 1), last]);
  }
  return left;
}

export function plusRuns(runs, [from, to]) {
  const joined = [];
  for (const [first, last] of [...minusRuns(runs, [from, to]), [from, to]].sort((one, other) => one[0] - other[0])) {
    const end = joined.at(-1);
    if (end && end[1] + 1 === first) end[1] = last;
    else joined.push([first, last]);
  }
  return joined;
}

// The first `number` shares of runs, and the rest.
export function takeRuns(runs, number) {
  const taken = [], rest = [];
  for (const [from, to] of runs) {
    const some = Math.min(number, to - from + 1);
    if (some > 0) taken.push([from, from + some - 1]);
    if (from + some <= to) rest.push([from + some, to]);
    number -= some;
  }
  return [taken, rest];
}

export const WAYS = ["for", "against", "withheld"];

// The sessions of a meeting, by number: one, unless it was adjourned.
export const sessionsOf = (notice) => notice.sessions ?? [{ number: 1, appointed: notice.appointed, cutoff: notice.cutoff, opened: notice.opened }];
export const lastSession = (notice) => sessionsOf(notice).at(-1);

// The session of a poll, or the last where none is ordered.
export const sessionOf = (notice, poll) => poll === null ? lastSession(notice) : sessionsOf(notice)[(poll.session ?? 1) - 1];

// The shares of the caller's own that its proxies govern for a poll of a session: of each share the last appointment that counts
// governs it, and where that one is ended none does. For a late poll appointments count until the poll's cutoff and endings before
// its taking, else until the session's cutoff and before its opening. Moments are compared as texts, which are all of one length.
export function givenAway(given, poll, session) {
  const late = poll !== null && poll.late;
  const { cutoff } = late ? poll : session, before = late ? poll.take : session.opened;
  let runs = [];
  for (const item of given) {
    if (item.received > cutoff) continue;
    const ended = item.ended !== null && (before === null || item.ended < before);
    runs = ended ? minusRuns(runs, [item.from, item.to]) : plusRuns(runs, [item.from, item.to]);
  }
  return runs;
}

// The blocks of shares on which the caller may vote: {as, member, runs, way}, where `way` is an instruction or "free". A member
// whose proxies govern some of its shares has two blocks: `part` "kept" for those that no proxy has, and "all".
export function blocksOf(mine, resolution, notice) {
  const blocks = [], proxies = new Map();
  const { number, poll } = resolution;
  const session = sessionOf(notice, poll);
  if (mine.row !== null && mine.row.kind === "individual") {
    const all = [[1, mine.row.shares]];
    const kept = givenAway(mine.given, poll, session).reduce(minusRuns, all);
    const own = { as: "member", member: null, way: "free" };
    if (kept.length > 0 && countRuns(kept) < mine.row.shares) blocks.push({ ...own, runs: kept, part: "kept" });
    blocks.push({ ...own, runs: all, part: countRuns(kept) < mine.row.shares ? "all" : null });
  }
  for (const { corporation, shares } of mine.authorised) {
    if (shares > 0) blocks.push({ as: "rep", member: corporation, runs: [[1, shares]], way: "free" });
  }
  for (const received of mine.received) {
    const late = received.polls.find((item) => item.resolution === number);
    const runs = poll !== null && poll.late ? late?.governs ?? [] : received.sessions?.[session.number - 1].governs ?? received.governs;
    const way = received.instructions[number - 1] ?? "free";
    if (runs.length === 0) continue;
    const whose = `${received.member} ${way}`, block = proxies.get(whose);
    if (block) block.runs = runs.reduce(plusRuns, block.runs);
    else proxies.set(whose, { as: "proxy", member: received.member, runs, way });
  }
  return [...blocks, ...proxies.values()];
}

export const isFree = (block) => block.as !== "proxy" || block.way === "free";

// The casts for a block: `split` has the numbers of shares for each way, taken in the order of the shares.
export function castsOf(block, self, resolution, split) {
  const casts = [];
  let rest = block.runs;
  for (const way of WAYS) {
    let taken;
    [taken, rest] = takeRuns(rest, split[way] ?? 0);
    for (const [from, to] of taken) {
      casts.push({ resolution, as: block.as, member: block.member ?? self, from, to, way });
    }
  }
  return casts;
}

// What was recorded on a resolution: of a block, by the last cast on each share, {for, against, withheld}, each a list of runs.
// The casts are looked at once, for however many blocks.
export function recorder(casts, resolution) {
  const whose = ({ as, member }) => as === "member" ? as : `${as} ${member}`;
  const placed = new Map();
  let instructed = -1;
  casts.forEach((cast, place) => {
    if (cast.resolution !== resolution) return;
    if (cast.as === "instructed") instructed = place;
    else if (placed.has(whose(cast))) placed.get(whose(cast)).push([place, cast]);
    else placed.set(whose(cast), [[place, cast]]);
  });
  return (block) => {
    const told = { for: [], against: [], withheld: [] };
    const put = (way, run) => {
      for (const other of WAYS) told[other] = minusRuns(told[other], run);
      told[way] = plusRuns(told[way], run);
    };
    const since = isFree(block) ? -1 : instructed;
    if (since >= 0) for (const run of block.runs) put(block.way, run);
    for (const [place, cast] of placed.get(whose(block)) ?? []) {
      if (place < since) continue;
      for (const [from, to] of block.runs) {
        const run = [Math.max(from, cast.from), Math.min(to, cast.to)];
        if (run[0] <= run[1]) put(cast.way, run);
      }
    }
    return told;
  };
}

// The desk takes so many votes of a party on a resolution.
export const MOST_VOTES = 1024;

// What it takes to vote one way on blocks: {casts, shares, left, same}. Shares that are recorded so already take no cast. Where there are
// more casts than `room`, blocks with the fewest shares a cast are `left` out. `same` blocks take none.
export function planAll(blocks, told, room, self, resolution, way) {
  const plans = blocks.map((block) => {
    const runs = told(block)[way].reduce(minusRuns, block.runs), shares = countRuns(runs);
    return { block, shares, casts: castsOf({ ...block, runs }, self, resolution, { [way]: shares }) };
  }).filter(({ casts }) => casts.length > 0);
  const left = new Set();
  for (const plan of [...plans].sort((one, other) => other.shares / other.casts.length - one.shares / one.casts.length)) {
    if (plan.casts.length <= room) room -= plan.casts.length;
    else left.add(plan);
  }
  const sent = plans.filter((plan) => !left.has(plan));
  return { casts: sent.flatMap(({ casts }) => casts), shares: sent.reduce((sum, { shares }) => sum + shares, 0),
    left: plans.filter((plan) => left.has(plan)).map(({ block }) => block), same: blocks.length - plans.length };
}

export function recordedWords(told) {
  const parts = WAYS.filter((way) => told[way].length > 0)
    .map((way) => `${way} on ${sharesWords(countRuns(told[way]))} (${runsWords(told[way])})`);
  return parts.length === 0 ? "nothing yet" : parts.join("; ");
}

// How far a resolution has come: "no poll", "ordered", "open", "closed" or "declared".
export function stageOf(resolution) {
  const poll = resolution.poll;
  if (poll === null) return "no poll";
  if (poll.result !== null) return "declared";
  if (poll.closed !== null) return "closed";
  return poll.started !== null ? "open" : "ordered";
}

// After how many seconds the page asks again by itself: 5 while a poll is open, 15 while one is ordered or closed and about the
// time of the meeting, 60 otherwise, and 0, never, once every resolution is declared.
export function askAgain(notice, now) {
  const stages = notice.resolutions.map(stageOf);
  if (stages.every((stage) => stage === "declared")) return 0;
  if (stages.includes("open")) return 5;
  const near = Math.abs(momentNumber(lastSession(notice).appointed) - now) < 3600;
  return near || stages.includes("ordered") || stages.includes("closed") ? 15 : 60;
}

// The bar of a result, in thousandths of the votes, with the line at the majority and the sentence below it.
export function resultBar(kind, result) {
  const votes = result.for + result.against;
  const special = kind === "special";
  return {
    yes: votes === 0 ? 0 : Math.round(result.for * 1000 / votes),
    line: special ? 750 : 500,
    votes,
    unvoted: result.eligible - votes - result.withheld,
    need: special ? "A special resolution needs three quarters of the votes." : "An ordinary resolution needs more than half of the votes.",
  };
}

// The numbers of the resolutions whose polls run: not closed, and started or not late. While one runs the meeting is not adjourned.
export const runningPolls = (notice) => notice.resolutions.filter(({ poll }) => poll !== null && poll.closed === null && (poll.started !== null || !poll.late))
  .map(({ number }) => number);

// What the person who calls a meeting typed: errors by field, and warnings about what the desk would take.
export function checkCall(form, now) {
  const errors = [], warnings = [];
  const bad = (field, text) => errors.push({ field, text });
  if (!/^[A-Z0-9]{1,16}$/.test(form.meeting)) bad("call-name", "The name of the meeting has 1 to 16 capitals and digits, such as G1.");
  const given = dayNumber(form.given), appointed = momentNumber(form.appointed), record = momentNumber(form.record);
  if (given === null) bad("call-given", "Give the day on which notice is taken as received, from 1900 to 2999.");
  if (appointed === null) bad("call-appointed", "Give the day and time of the meeting.");
  if (record === null) bad("call-record", "Give the record moment of the register.");
  if (given !== null && appointed !== null) {
    const clear = clearDays(form.given, form.appointed);
    const enough = form.company === "public" && form.kind === "annual" ? 21 : 14;
    if (clear < enough) bad("call-appointed", `There are ${Math.max(clear, 0)} clear days between notice and meeting. ${enough} are needed.`);
    if (clear > 90) warnings.push(`There are ${clear} clear days between notice and meeting. Look at both days.`);
  }
  if (appointed !== null && appointed < now) warnings.push("The time of the meeting is past.");
  if (appointed !== null && [0, 6].includes(new Date(appointed * 1000).getUTCDay())) warnings.push("The meeting is on a weekend.");
  if (appointed !== null && record !== null && record > appointed) {
    warnings.push("The record moment is after the time of the meeting. The register can not be loaded before it, so the meeting can not be opened in time.");
  }
  if (given !== null && record !== null && record < given * 86400) warnings.push("The record moment is before the day of notice.");
  if (form.resolutions.length < 1 || form.resolutions.length > 50) bad("call-add", "A meeting has 1 to 50 resolutions.");
  form.resolutions.forEach(([, text], place) => {
    const bytes = new TextEncoder().encode(text).length;
    if (bytes < 1 || bytes > 200) bad(`call-text-${place + 1}`, `The words of resolution ${place + 1} have 1 to 200 characters.`);
    else if (/[\u0000-\u001f\u007f]/.test(text)) bad(`call-text-${place + 1}`, `The words of resolution ${place + 1} stand on one line.`);
  });
  return { errors, warnings };
}

// The parties in a file, {party, name}: the first field of each line, and the holder's name where the line is one of a register.
// The holder of treasury shares is left out. null for a file of keys, which does not belong here.
export function namesIn(text) {
  const lines = text.replace(/^\uFEFF/, "").split(/\r?\n/);
  if (/^party,key/.test(lines[0])) return null;
  const found = new Map();
  for (const line of lines) {
    const [, party, kind, quoted, plain] = /^\s*([A-Z0-9]{1,16})\s*(?:$|,([a-z]*)(?:,(?:"((?:[^"]|"")*)"|([^,]*)))?)/.exec(line) ?? [];
    if (party !== undefined && party !== "OFFICE" && kind !== "treasury") found.set(party, quoted?.replace(/""/g, '"') ?? plain ?? "");
  }
  return [...found].map(([party, name]) => ({ party, name }));
}
