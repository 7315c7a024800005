// The line in words for a cycle: what the program printed, and which words of the rule say why.
const COUNTS = ["none", "one", "two", "three", "four", "five", "six", "seven", "eight"];
const NAMED = 8;

function number(value) {
  return value.toLocaleString("en-US");
}

function plural(count, noun) {
  return `${number(count)} ${noun}${count === 1 ? "" : "s"}`;
}

// The names of stations; of more than eight the first seven, and how many more there are.
function listed(stations) {
  const names = stations.map(String);
  if (names.length > NAMED) names.splice(NAMED - 1, Infinity, `${number(names.length - NAMED + 1)} more`);
  return names.length < 2 ? names.join() : `${names.slice(0, -1).join(", ")} and ${names.at(-1)}`;
}

function inWords(run, cycle) {
  if (cycle.refusal) return `${refusedWords(run, cycle.given, cycle.refusal)} ${unchangedWords(run, cycle)}`;
  const asking = askers(run, cycle);
  const start = cycle.head === NONE ? "No head yet, so the order starts at 0." : `${run.bus ? "Token" : "Head"} ${cycle.head}.`;
  if (asking.length === 0) return `${start} ${idleWords(run, cycle)}`;
  return [start, grantedWords(cycle, asking), nextWords(run, cycle)].join(" ");
}

function idleWords(run, cycle) {
  if (run.bus) {
    const moved = cycle.acknowledged ? " An acknowledge without a grant moves nothing." : "";
    return `Nobody asks, so nobody is granted and the token stays at ${cycle.next}.${moved}`;
  }
  if (cycle.head === NONE) return `Nobody asks. Where there was no head, the last station becomes it: the next head is ${cycle.next}.`;
  return `Nobody asks, so nobody is granted and the head stays at ${cycle.next}.`;
}

function grantedWords(cycle, asking) {
  const count = cycle.granted.length;
  const rest = asking.length - count;
  if (rest === 0) {
    if (count === 1) return `Only ${listed(asking)} asks.`;
    return `${listed(asking)} ask, in this order from there, and ${count === 2 ? "both" : "all"} are granted.`;
  }
  const first = count === 1 ? "is the first that asks from there" : `are the first ${COUNTS[count]} that ask from there`;
  const waiting = asking.filter((station) => !cycle.granted.includes(station));
  return `${listed(cycle.granted)} ${first}. ${listed(waiting)} ${rest === 1 ? "asks too and waits" : "ask too and wait"}.`;
}

function nextWords(run, cycle) {
  const last = cycle.granted.at(-1);
  const granted = cycle.granted.length === 1 ? `${last} is granted` : `${last} is granted last`;
  if (run.bus && !cycle.acknowledged) return `${granted}, but the transfer is not acknowledged, so the token stays at ${cycle.next}.`;
  if (run.bus) return `${granted} and the transfer acknowledged, so the token moves to the station after itself, ${cycle.next}, whoever was granted.`;
  const wraps = last === run.stations - 1 ? ": after the last station comes 0" : "";
  return `${granted}, so the next head is ${cycle.next}${wraps}.`;
}

function unchangedWords(run, cycle) {
  if (run.bus) return `Nothing changes: the token stays at ${cycle.head}.`;
  return cycle.head === NONE ? "Nothing changes: there is still no head." : `Nothing changes: the head stays at ${cycle.head}.`;
}

// What the questions about a line ask, in characters: the library, whose words `show` puts into REFUSALS, speaks of buffers and bytes there.
const QUESTIONS = {
  5: (run) => (run.bus ? "Has the line a character for each station, a space and one character more?" : "Has the line a character for each station?"),
  8: () => "Is each station's character 0 or 1?",
  9: () => "Is the acknowledge character 0 or 1?",
};

function refusedWords(run, bytes, refusal) {
  const words = REFUSALS[refusal.question];
  const question = QUESTIONS[refusal.question]?.(run) ?? (words ? `${words}.` : "");
  const fault = faultWords(run, bytes, refusal);
  return [`Refused by question ${refusal.question}${question ? ":" : "."}`, question, fault].filter(Boolean).join(" ");
}

function faultWords(run, bytes, { question, place }) {
  if (question === 8) return `The character at place ${place} is ${quoted(bytes[place])}.`;
  if (question === 9) return `It is ${quoted(bytes[run.stations + 1])}.`;
  if (question !== 5) return "";
  const length = `It has ${plural(bytes.length, "character")}`;
  const shape = run.bus && bytes.length === run.stations + 2 ? ` and no space at place ${run.stations}` : "";
  return `${length}${shape}; there ${run.stations === 1 ? "is" : "are"} ${plural(run.stations, "station")}.`;
}

// A printable character stands as itself, any other byte as its two hexadecimal digits.
function isPrintable(byte) {
  return byte >= 0x20 && byte < 0x7f;
}

function escaped(byte) {
  return `\\x${byte.toString(16).padStart(2, "0")}`;
}

function quoted(byte) {
  return isPrintable(byte) ? `“${String.fromCharCode(byte)}”` : `the byte ${escaped(byte)}`;
}
