// The page: fills in what holds of the whole run, and goes from cycle to cycle by buttons, slider, keys or the clock.
const LONGEST_LINE = 1100;
const SHORT_LINE = 200;
const TOO_LONG = 12;
const SMOOTH_UP_TO = 4;
// Of a longer time without a frame, as in a tab that is not looked at, playing makes up for no more than this.
const LONGEST_GAP = 100;

const element = (id) => document.getElementById(id);

// Bytes of the input as text, whatever they are: a byte that is no printable character stands apart, by its digits.
function showBytes(parent, bytes, isWhole = true) {
  const parts = [];
  let plain = "";
  for (const byte of bytes.subarray(0, LONGEST_LINE)) {
    if (isPrintable(byte)) {
      plain += String.fromCharCode(byte);
      continue;
    }
    const digits = document.createElement("b");
    digits.textContent = escaped(byte);
    parts.push(plain, digits);
    plain = "";
  }
  parent.replaceChildren(...parts, plain);
  parent.parentElement.classList.toggle("long", bytes.length > SHORT_LINE);
  const more = bytes.length - LONGEST_LINE;
  parent.nextElementSibling.textContent = more > 0 ? `and ${isWhole ? `${number(more)} characters ` : ""}more` : bytes.length === 0 ? "nothing" : "";
}

let player = null;

class Player {
  constructor(run) {
    this.run = run;
    this.last = run.cycles.length - 1;
    Object.assign(this, { at: 0, wordsHeight: 0 });
    this.stage = makeStage(run);
    this.timeline = new Timeline(run, element("timeline"), (at) => this.step(at));
    this.waits = new Waits(run, element("waits"));
    element("slider").max = this.last + 1;
    this.listen();
    this.go(0);
    // What is shown first is shown at once, and moves only from then on.
    requestAnimationFrame(() => requestAnimationFrame(() => this.playing || this.pause()));
  }

  go(at) {
    this.at = Math.max(0, Math.min(this.last, at));
    const cycle = this.run.cycles[this.at];
    this.stage.show(cycle);
    this.timeline.show(this.at);
    this.waits.show(this.at);
    element("words").textContent = inWords(this.run, cycle);
    element("acknowledge").textContent = cycle.refusal ? "" : cycle.acknowledged ? "acknowledged" : "not acknowledged";
    element("acknowledge").classList.toggle("on", Boolean(cycle.acknowledged));
    element("words").classList.toggle("refused", Boolean(cycle.refusal));
    element("line-title").textContent = `Cycle line ${number(cycle.line)}`;
    showBytes(element("given"), cycle.given);
    element("printed").textContent = cycle.printed;
    element("printed").parentElement.classList.toggle("long", cycle.printed.length > SHORT_LINE);
    element("slider").value = this.at + 1;
    element("position").textContent = `cycle line ${number(this.at + 1)} of ${number(this.last + 1)}`;
    for (const [id, end] of [["first", 0], ["back", 0], ["forward", this.last], ["end", this.last]]) element(id).setAttribute("aria-disabled", this.at === end);
    this.keepWordsHeight();
  }

  // The line in words keeps the largest height that it has had, so that what is below it stays where it is.
  keepWordsHeight() {
    this.wordsHeight = Math.max(this.wordsHeight, element("words").offsetHeight);
    element("words").style.minHeight = `${this.wordsHeight}px`;
  }

  forgetWordsHeight() {
    this.wordsHeight = 0;
    element("words").style.minHeight = "";
    this.keepWordsHeight();
  }

  // By hand: whatever plays, stops.
  step(at) {
    this.pause();
    this.go(at);
  }

  play() {
    if (this.at === this.last) this.go(0);
    this.playing = true;
    this.due = null;
    this.showPlaying();
    requestAnimationFrame((now) => this.tick(now));
  }

  pause() {
    this.playing = false;
    this.showPlaying();
  }

  toggle() {
    if (this.playing) this.pause();
    else this.play();
  }

  tick(now) {
    if (!this.playing) return;
    const pace = 1000 / Number(element("speed").value);
    this.due ??= now + pace;
    this.due = Math.max(this.due, now - LONGEST_GAP);
    const steps = Math.floor((now - this.due) / pace) + 1;
    if (steps > 0) {
      this.due += steps * pace;
      this.go(this.at + steps);
    }
    if (this.at === this.last) this.pause();
    else requestAnimationFrame((later) => this.tick(later));
  }

  showPlaying() {
    document.body.classList.toggle("playing", this.playing);
    document.body.classList.toggle("fast", this.playing && Number(element("speed").value) > SMOOTH_UP_TO);
    element("play").setAttribute("aria-label", this.playing ? "Pause" : "Play");
    element("words").setAttribute("aria-live", this.playing ? "off" : "polite");
  }

  listen() {
    const clicks = { first: () => this.step(0), back: () => this.step(this.at - 1), play: () => this.toggle() };
    Object.assign(clicks, { forward: () => this.step(this.at + 1), end: () => this.step(this.last) });
    for (const [id, act] of Object.entries(clicks)) element(id).addEventListener("click", act);
    element("slider").addEventListener("input", (event) => this.step(Number(event.target.value) - 1));
    element("speed").addEventListener("change", () => this.showPlaying());
    document.addEventListener("keydown", (event) => this.key(event));
    window.addEventListener("resize", () => this.forgetWordsHeight());
    // What the mouse has pressed keeps no focus, so that space still plays.
    document.addEventListener("click", (event) => event.detail > 0 && document.activeElement.tagName !== "SELECT" && document.activeElement.blur());
  }

  key(event) {
    const { key, target } = event;
    const keys = { ArrowLeft: this.at - 1, ArrowRight: this.at + 1, Home: 0, End: this.last };
    if (event.ctrlKey || event.altKey || event.metaKey) return;
    if (key === " " && !["BUTTON", "SUMMARY"].includes(target.tagName)) event.repeat || this.toggle();
    else if (key in keys) this.step(keys[key]);
    else return;
    event.preventDefault();
  }
}

function showRun(run) {
  const picks = `at most ${run.picks} granted in a cycle`;
  element("about").textContent = [ENGINES[run.engine], plural(run.stations, "station"), picks, plural(run.cycles.length, "cycle line")].join(" · ");
  const traits = { bus: run.bus, "as-grid": run.stations > RING_STATIONS, "some-refused": run.served < run.cycles.length, "some-left": run.left.size > 0 };
  for (const [name, holds] of Object.entries(traits)) document.body.classList.toggle(name, holds);
  for (const word of document.querySelectorAll(".head-word")) word.textContent = headWord(run);
  element("waits-title").textContent = run.bus ? "How many acknowledged cycles each station waited" : "How many cycles each station waited";
  const counted = "From the cycle in which it begins to ask to the one that grants it, both counted.";
  element("counted").textContent = run.bus ? "Acknowledged cycles, from when it begins to ask to an acknowledged one that grants it, which counts too." : counted;
  element("longest").textContent = longestWords(run);
  if (run.cycles.length) player = new Player(run);
  else showEnd(run, "The input has no cycle lines, so there is no cycle to show.");
  element("table").addEventListener("toggle", () => fillTable(run), { once: true });
}

function longestWords(run) {
  const longest = Math.max(...run.longest);
  if (longest === NONE) return run.bus ? "No grant is acknowledged in this run." : "Nobody is granted in this run.";
  const length = plural(longest, run.bus ? "acknowledged cycle" : "cycle");
  const stations = [...run.longest.keys()].filter((station) => run.longest[station] === longest);
  const who = `${stations.length === 1 ? "station" : "stations"} ${listed(stations)}`;
  return `The longest wait in this run: ${length}, ${who}. The bound: ${number(run.bound)}.`;
}

function fillTable(run) {
  const times = new Array(run.stations).fill(0);
  for (const wait of run.ended.values()) times[wait.station] += wait.times;
  for (let station = 0; station < run.stations; station++) {
    const row = element("table-rows").insertRow();
    const longest = run.longest[station] === NONE ? "–" : number(run.longest[station]);
    for (const text of [station, number(times[station]), longest]) row.insertCell().textContent = text;
  }
}

// A run that did not start, or that has nothing to play: its first line, and the last that the program printed.
function showEnd(run, words) {
  document.body.classList.add("ended");
  element("words").textContent = words;
  element("line-title").textContent = "First line";
  showBytes(element("given"), run.first, run.refusal?.question !== TOO_LONG);
  element("printed").textContent = run.printed;
}

function showNoStart(run) {
  element("about").textContent = "the run did not start";
  element("words").classList.add("refused");
  showEnd(run, refusedWords(run, run.first, run.refusal));
}

try {
  const run = readRun(readBytes(element("input").textContent), element("output").textContent);
  if (run.refusal) showNoStart(run);
  else showRun(run);
} catch (error) {
  document.body.classList.add("ended", "broken");
  element("about").textContent = "this page cannot be shown";
  element("words").textContent = `What went wrong: ${error.message}.`;
  throw error;
}
