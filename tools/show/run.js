// The run: the lines of the input and, for each, the line that the program printed. Grants, next heads and refusals are
// read from the program's lines and decided nowhere here. How long each station waited is counted from both.
const NONE = -1;
const ONE = 0x31;
const LINE_FEED = 0x0a;
const HEADING = "line granted next";
const ENGINES = { S: "plain scan", T: "tree", P: "thermometer arbiter", B: "token bus" };

function readBytes(digits) {
  const compact = digits.replace(/\s/g, "");
  return Uint8Array.from({ length: compact.length / 2 }, (_, i) => parseInt(compact.slice(2 * i, 2 * i + 2), 16));
}

// The lines of the input, without their line feeds. After the last line feed there is no further line.
function splitLines(bytes) {
  const lines = [];
  for (let start = 0; start < bytes.length; ) {
    const feed = bytes.indexOf(LINE_FEED, start);
    const end = feed < 0 ? bytes.length : feed;
    lines.push(bytes.subarray(start, end));
    start = end + 1;
  }
  return lines;
}

function readRun(input, output) {
  const [first = new Uint8Array(), ...given] = splitLines(input);
  const [heading, ...printed] = output.trim().split("\n");
  if (heading !== HEADING) throw new Error("the program's output is missing");
  const run = { first, printed: printed[0] ?? heading, cycles: [], refusal: readRefusal(printed[0] ?? "", 0) };
  if (run.refusal) return run;
  const [engine, stations, picks] = String.fromCharCode(...first).split(" ");
  Object.assign(run, { engine, bus: engine === "B", stations: Number(stations), picks: Number(picks) });
  run.bound = run.bus ? run.stations : Math.ceil(run.stations / run.picks);
  readCycles(run, given, printed);
  countWaits(run);
  return run;
}

function readRefusal(printed, line) {
  const found = /^(\d+) refused (\d+) (\d+)$/.exec(printed);
  return found && Number(found[1]) === line ? { question: Number(found[2]), place: Number(found[3]) } : null;
}

// A run starts without a head, and on the bus with the token at station 0.
function readCycles(run, given, printed) {
  if (given.length !== printed.length) throw new Error("the program's output is that of another input");
  let head = run.bus ? 0 : NONE;
  let served = 0;
  for (const [i, bytes] of given.entries()) {
    const cycle = { line: i + 1, given: bytes, printed: printed[i], head, next: head, granted: [], served: NONE };
    cycle.refusal = readRefusal(printed[i], cycle.line);
    if (!cycle.refusal) {
      readServed(run, cycle);
      cycle.served = served++;
      head = cycle.next;
    }
    run.cycles.push(cycle);
  }
  run.served = served;
}

function readServed(run, cycle) {
  const [line, grants, next] = cycle.printed.split(" ");
  const fits = Number(line) === cycle.line && grants.length === run.stations && cycle.given.length >= run.stations;
  if (!fits) throw new Error(`line ${cycle.line} of the program's output is that of another input`);
  cycle.next = Number(next);
  cycle.acknowledged = run.bus && cycle.given[run.stations + 1] === ONE;
  for (let station = grants.indexOf("1"); station >= 0; station = grants.indexOf("1", station + 1)) cycle.granted.push(station);
  cycle.granted.sort((a, b) => placeInOrder(run, cycle.head, a) - placeInOrder(run, cycle.head, b));
}

// The place of a station in the order from the head, counted from 0. Without a head the order starts at station 0.
function placeInOrder(run, head, station) {
  return (station - Math.max(head, 0) + run.stations) % run.stations;
}

function asks(cycle, station) {
  return !cycle.refusal && cycle.given[station] === ONE;
}

function askers(run, cycle) {
  const found = [];
  for (let station = 0; station < run.stations; station++) if (asks(cycle, station)) found.push(station);
  return found.sort((a, b) => placeInOrder(run, cycle.head, a) - placeInOrder(run, cycle.head, b));
}

// The wait of a station in a served cycle: how many served cycles it has asked for since it began or was last granted,
// this one included. On the bus the acknowledged ones count, and a grant that is not acknowledged does not end the wait.
function countWaits(run) {
  const since = new Int32Array(run.stations).fill(NONE);
  Object.assign(run, { waited: new Uint16Array(run.served * run.stations), ended: new Map(), left: new Map() });
  for (const cycle of run.cycles) {
    if (!cycle.refusal) countCycle(run, cycle, since);
  }
  since.forEach((count, station) => count !== NONE && note(run.left, station, count));
  run.longest = new Int32Array(run.stations).fill(NONE);
  for (const { station, waited } of run.ended.values()) run.longest[station] = Math.max(run.longest[station], waited);
}

function countCycle(run, cycle, since) {
  const counts = !run.bus || cycle.acknowledged;
  for (let station = 0; station < run.stations; station++) {
    if (asks(cycle, station)) {
      since[station] = Math.max(since[station], 0) + (counts ? 1 : 0);
      run.waited[cycle.served * run.stations + station] = since[station];
      if (counts && cycle.granted.includes(station)) {
        note(run.ended, station, since[station]);
        since[station] = NONE;
      }
    } else if (since[station] !== NONE) {
      note(run.left, station, since[station]);
      since[station] = NONE;
    }
  }
}

function note(waits, station, waited) {
  const key = `${station} ${waited}`;
  const found = waits.get(key) ?? { station, waited, times: 0 };
  found.times++;
  waits.set(key, found);
}
