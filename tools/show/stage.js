// The stations of one cycle, as a ring or, where there are too many for that, as a grid.
const RING_STATIONS = 32;
const ORDER_STATIONS = 16;
const RING = 148;
const BESIDE = 54;
const ABOVE = 3;
const BELOW = 12;

function draw(name, attributes, parent, text) {
  const element = document.createElementNS("http://www.w3.org/2000/svg", name);
  for (const [key, value] of Object.entries(attributes)) element.setAttribute(key, value);
  if (text !== undefined) element.textContent = text;
  parent?.append(element);
  return element;
}

function ordinal(n) {
  const teen = n % 100 > 10 && n % 100 < 14;
  return n + (teen ? "th" : (["th", "st", "nd", "rd"][n % 10] ?? "th"));
}

// How a station stands in a cycle. On the bus a grant that is not acknowledged is one that has not ended the transfer.
function standing(run, cycle, station) {
  const turn = cycle.granted.indexOf(station);
  if (turn >= 0) return run.bus && !cycle.acknowledged ? "granted unended" : "granted";
  return asks(cycle, station) ? "waits" : "quiet";
}

function headWord(run) {
  return run.bus ? "token" : "head";
}

// How many stations of the order are looked at: up to the one that is granted last, and all where nobody asks.
function lookedAt(run, cycle) {
  if (cycle.refusal) return 0;
  return cycle.granted.length ? placeInOrder(run, cycle.head, cycle.granted.at(-1)) + 1 : run.stations;
}

function makeStage(run) {
  const isRing = run.stations <= RING_STATIONS;
  const [shown, hidden] = isRing ? ["ring", "grid"] : ["grid", "ring"];
  document.getElementById(hidden).remove();
  return isRing ? new Ring(run, document.getElementById(shown)) : new Grid(run, document.getElementById(shown));
}

class Ring {
  constructor(run, svg) {
    Object.assign(this, { run, svg, word: headWord(run) });
    this.radius = Math.min(25, (Math.PI * RING * 0.84) / run.stations);
    svg.setAttribute("viewBox", "-206 -206 412 412");
    draw("circle", { class: "track", r: RING }, svg);
    this.order = draw("g", {}, svg);
    this.hands = { next: this.makeHand(svg, "next", 60), head: this.makeHand(svg, "head", 86) };
    this.stations = Array.from({ length: run.stations }, (_, i) => this.makeStation(svg, i));
    this.turns = draw("g", {}, svg);
    this.middle = ["caption", "granted", "then"].map((name, i) => draw("text", { class: name, y: [-18, 8, 28][i] }, svg));
  }

  point(station, radius) {
    const angle = (2 * Math.PI * station) / this.run.stations - Math.PI / 2;
    return { x: Math.cos(angle) * radius, y: Math.sin(angle) * radius };
  }

  makeStation(svg, station) {
    const { x, y } = this.point(station, RING);
    const group = draw("g", { transform: `translate(${x} ${y})`, "data-station": station }, svg);
    draw("circle", { class: "body", r: this.radius }, group);
    draw("text", { class: "number", "font-size": this.radius * 0.84 }, group, station);
    return group;
  }

  makeHand(svg, name, tag) {
    const tip = -(RING - this.radius - 8);
    const hand = draw("g", { class: `hand ${name}` }, svg);
    draw("path", { class: "shaft", d: `M0 -54 V${tip + 8}` }, hand);
    draw("path", { class: "tip", d: `M0 ${tip} l7 13 h-14 z` }, hand);
    const label = draw("g", { class: "tag" }, hand);
    draw("text", {}, label);
    return { hand, label, tag, angle: 0 };
  }

  // Turns a hand to a station by the shorter way, with its label upright.
  turn({ hand, label, tag }, which, station, text) {
    const to = (360 * station) / this.run.stations;
    const from = this.hands[which].angle;
    const angle = from + ((((to - from) % 360) + 540) % 360) - 180;
    this.hands[which].angle = angle;
    hand.style.transform = `rotate(${angle}deg)`;
    label.style.transform = `translate(0, ${-tag}px) rotate(${-angle}deg)`;
    label.firstChild.textContent = text;
  }

  show(cycle) {
    const { head, next } = this.hands;
    this.svg.setAttribute("aria-label", inWords(this.run, cycle));
    this.svg.classList.toggle("refused", Boolean(cycle.refusal));
    for (const [station, group] of this.stations.entries()) group.setAttribute("class", `station ${standing(this.run, cycle, station)}`);
    this.turn(head, "head", Math.max(cycle.head, 0), cycle.head === NONE ? "no head" : this.word);
    this.turn(next, "next", Math.max(cycle.next, 0), "next");
    head.hand.classList.toggle("none", cycle.head === NONE);
    next.hand.classList.toggle("same", cycle.next === cycle.head);
    this.showOrder(cycle);
    this.showTurns(cycle);
    this.showMiddle(cycle);
  }

  showOrder(cycle) {
    const looked = lookedAt(this.run, cycle);
    this.order.replaceChildren();
    if (looked < 2) return;
    const radius = RING - this.radius - 13;
    const first = Math.max(cycle.head, 0);
    const [from, to] = [this.point(first, radius), this.point(first + looked - 1, radius)];
    const large = (looked - 1) * 2 > this.run.stations ? 1 : 0;
    const d = `M${from.x} ${from.y} A${radius} ${radius} 0 ${large} 1 ${to.x} ${to.y}`;
    draw("path", { class: "order", d, pathLength: 1, "marker-end": "url(#arrow)" }, this.order);
  }

  // The places in the order, where there is room for all of them; else those of the granted alone.
  showTurns(cycle) {
    this.turns.replaceChildren();
    if (cycle.refusal) return;
    const all = this.run.stations <= ORDER_STATIONS;
    for (let place = 0; place < this.run.stations; place++) {
      const station = (Math.max(cycle.head, 0) + place) % this.run.stations;
      const granted = cycle.granted.includes(station);
      if (!all && !granted) continue;
      const { x, y } = this.point(station, RING + this.radius + 13);
      draw("text", { class: granted ? "turn granted" : "turn", x: x * 1.035, y }, this.turns, ordinal(place + 1));
    }
  }

  showMiddle(cycle) {
    const [caption, granted, then] = this.middle;
    const names = cycle.granted.join(", ");
    caption.textContent = cycle.refusal ? "refused by question" : cycle.granted.length ? "granted" : "";
    granted.textContent = cycle.refusal ? cycle.refusal.question : names.length > 12 ? `${cycle.granted.length} stations` : names || "nobody asks";
    granted.setAttribute("font-size", granted.textContent.length > 5 ? 16 : 26);
    const moves = cycle.next !== cycle.head || (cycle.granted.length > 0 && standing(this.run, cycle, cycle.granted[0]) === "granted");
    const stays = cycle.head === NONE ? "no head" : `${this.word} stays`;
    then.textContent = moves ? `next ${cycle.next}` : stays;
  }
}

// Up to 256 stations are circles with numbers; more are squares, and the numbers of each row's first station stand before it.
class Grid {
  constructor(run, canvas) {
    Object.assign(this, { run, canvas, word: headWord(run), cycle: run.cycles[0] });
    this.columns = run.stations <= 64 ? 8 : run.stations <= 256 ? 16 : 32;
    this.rows = Math.ceil(run.stations / this.columns);
    this.repaint = makeCanvas(canvas, (width) => this.measure(width), (...drawn) => this.paint(...drawn));
    canvas.addEventListener("pointermove", (event) => this.showTitle(event.offsetX, event.offsetY));
  }

  show(cycle) {
    this.cycle = cycle;
    this.canvas.setAttribute("aria-label", inWords(this.run, cycle));
    this.repaint();
  }

  // Cells are as large as width and window allow, with room for the rows' numbers at the left and for labels at the right.
  measure(width) {
    this.cell = Math.min(48, (width - 2 * BESIDE) / this.columns, Math.max(300, innerHeight * 0.58) / this.rows);
    this.left = (width - this.columns * this.cell) / 2;
    return this.rows * this.cell + ABOVE + BELOW;
  }

  corner(station) {
    return { x: this.left + (station % this.columns) * this.cell, y: ABOVE + Math.floor(station / this.columns) * this.cell };
  }

  showTitle(x, y) {
    const [column, row] = [Math.floor((x - this.left) / this.cell), Math.floor((y - ABOVE) / this.cell)];
    const station = row * this.columns + column;
    const inside = column >= 0 && column < this.columns && row >= 0 && station < this.run.stations;
    this.canvas.title = inside ? `station ${station}` : "";
  }

  paint(context, width, colours) {
    context.clearRect(0, 0, width, this.rows * this.cell + ABOVE + BELOW);
    this.paintOrder(context, colours);
    const paintStation = this.columns > 16 ? this.paintSquare : this.paintCircle;
    context.textAlign = "center";
    for (let station = 0; station < this.run.stations; station++) {
      paintStation.call(this, context, colours, station, standing(this.run, this.cycle, station));
    }
    this.paintRows(context, colours);
    const { head, next } = this.cycle;
    if (next !== head) this.paintMark(context, colours, next, [3, 3]);
    if (head !== NONE) this.paintMark(context, colours, head, []);
    this.paintLabels(context, colours);
  }

  paintOrder(context, colours) {
    const looked = lookedAt(this.run, this.cycle);
    for (let place = 0; place < looked; place++) {
      const { x, y } = this.corner((Math.max(this.cycle.head, 0) + place) % this.run.stations);
      fill(context, colours.head, x, y, this.cell, this.cell, 0.14);
    }
  }

  // The colours of border, inside and number.
  look(stands) {
    if (stands === "quiet") return { border: "line", inside: "panel", text: "muted" };
    if (stands === "waits") return { border: "waits", inside: "waitsPale", text: "ink" };
    return stands === "granted" ? { border: "granted", inside: "granted", text: "onGranted" } : { border: "granted", inside: "panel", text: "granted" };
  }

  paintSquare(context, colours, station, stands) {
    const { x, y } = this.corner(station);
    const { border, inside } = this.look(stands);
    const edge = Math.max(1, this.cell * 0.14);
    const inner = edge + (stands === "quiet" ? 1 : Math.max(1, this.cell * 0.13));
    fill(context, colours[border], x + edge, y + edge, this.cell - 2 * edge, this.cell - 2 * edge);
    fill(context, colours[inside], x + inner, y + inner, this.cell - 2 * inner, this.cell - 2 * inner);
  }

  paintCircle(context, colours, station, stands) {
    const { x, y } = this.corner(station);
    const { border, inside, text } = this.look(stands);
    context.beginPath();
    context.arc(x + this.cell / 2, y + this.cell / 2, this.cell * 0.38, 0, 2 * Math.PI);
    Object.assign(context, { fillStyle: colours[inside], strokeStyle: colours[border], lineWidth: stands === "quiet" ? 1.5 : 2.5 });
    context.setLineDash(stands === "granted unended" ? [4, 3] : []);
    context.fill();
    context.stroke();
    context.fillStyle = colours[text];
    context.font = `${stands === "granted" ? 700 : 400} ${Math.round(this.cell * (station > 99 ? 0.34 : 0.4))}px system-ui, sans-serif`;
    context.fillText(station, x + this.cell / 2, y + this.cell / 2 + 0.5);
  }

  paintRows(context, colours) {
    Object.assign(context, { font: SMALL, fillStyle: colours.muted, textAlign: "right" });
    for (let row = 0; row < this.rows; row += Math.ceil(12 / this.cell)) {
      const { x, y } = this.corner(row * this.columns);
      context.fillText(row * this.columns, x - 6, y + this.cell / 2);
    }
  }

  paintMark(context, colours, station, dashes) {
    const { x, y } = this.corner(station);
    Object.assign(context, { strokeStyle: colours.head, lineWidth: 2 });
    context.setLineDash(dashes);
    context.strokeRect(x + 1, y + 1, this.cell - 2, this.cell - 2);
    context.setLineDash([]);
  }

  // Head and next head are named beside their rows, where they cover no station, and one below the other.
  paintLabels(context, colours) {
    const { head, next } = this.cycle;
    const beside = (station) => this.corner(Math.max(station, 0)).y + this.cell / 2;
    const labels = [{ y: beside(head), text: head === NONE ? "no head" : this.word }];
    if (next !== head) labels.push({ y: beside(next), text: "next" });
    labels.sort((a, b) => a.y - b.y);
    if (labels.length > 1) labels[1].y = Math.max(labels[1].y, labels[0].y + 11);
    Object.assign(context, { font: SMALL, fillStyle: colours.head, textAlign: "left" });
    for (const { y, text } of labels) context.fillText(text, this.left + this.columns * this.cell + 5, y);
  }
}
