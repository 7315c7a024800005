// Two plots on canvases: the whole run, a row for each station, and how long each station waited, with the bound.
const GUTTER = 40;
const COLUMN_HEAD = 16;

// The whole run, or, where it is too long, the part around the cycle that is shown.
class Timeline {
  constructor(run, holder, go) {
    this.run = run;
    this.rowHeight = Math.max(Math.min(20, 260 / run.stations), 320 / 1024);
    this.columnWidth = Math.min(22, Math.max(8, this.rowHeight));
    this.height = COLUMN_HEAD + Math.max(this.rowHeight * run.stations, 12);
    [this.canvas, this.cursor, this.later] = [".cells", ".cursor", ".later"].map((name) => holder.querySelector(name));
    Object.assign(this, { at: 0, first: 0, fits: 0 });
    this.repaint = makeCanvas(this.canvas, () => this.height, (...drawn) => this.paint(...drawn));
    this.canvas.addEventListener("click", (event) => {
      const column = Math.floor((event.offsetX - GUTTER) / this.columnWidth);
      if (column >= 0 && this.first + column < run.cycles.length) go(this.first + column);
    });
  }

  show(at) {
    this.at = at;
    if (this.firstFor(at) !== this.first) this.repaint();
    this.placeCursor();
  }

  firstFor(at) {
    const last = Math.max(0, this.run.cycles.length - this.fits);
    return Math.min(last, Math.max(0, at - Math.floor(this.fits / 2)));
  }

  placeCursor() {
    const left = GUTTER + (this.at - this.first) * this.columnWidth;
    const shown = Math.min(this.run.cycles.length - this.first, this.fits);
    Object.assign(this.cursor.style, { left: `${left}px`, width: `${this.columnWidth}px`, height: `${this.height}px` });
    const from = left + this.columnWidth;
    const rest = Math.max(0, GUTTER + shown * this.columnWidth - from);
    Object.assign(this.later.style, { left: `${from}px`, width: `${rest}px`, top: `${COLUMN_HEAD}px`, height: `${this.height - COLUMN_HEAD}px` });
  }

  paint(context, width, colours) {
    this.fits = Math.max(1, Math.floor((width - GUTTER) / this.columnWidth));
    this.first = this.firstFor(this.at);
    context.clearRect(0, 0, width, this.height);
    this.paintRows(context, width, colours);
    const last = Math.min(this.run.cycles.length, this.first + this.fits);
    for (let at = this.first; at < last; at++) this.paintColumn(context, at, colours);
    this.placeCursor();
  }

  paintRows(context, width, colours) {
    const { stations } = this.run;
    const step = roundStep(11 / this.rowHeight);
    context.textAlign = "right";
    for (let station = 0; station < stations; station += step) {
      const y = COLUMN_HEAD + (station + 0.5) * this.rowHeight;
      if (this.rowHeight > 8) fill(context, colours.line, GUTTER, y, width - GUTTER, 1, 0.6);
      context.fillStyle = colours.muted;
      context.fillText(station, GUTTER - 8, y);
    }
  }

  paintColumn(context, at, colours) {
    const cycle = this.run.cycles[at];
    const x = GUTTER + (at - this.first) * this.columnWidth;
    if (cycle.line === 1 || cycle.line % 5 === 0) {
      context.textAlign = "center";
      context.fillStyle = colours.muted;
      context.fillText(number(cycle.line), x + this.columnWidth / 2, 7);
    }
    if (cycle.refusal) {
      fill(context, colours.refused, x + this.columnWidth / 2 - 1, COLUMN_HEAD, 2, this.height - COLUMN_HEAD);
      return;
    }
    this.paintAskers(context, cycle, x, colours);
    const size = Math.max(2, this.rowHeight - 2);
    for (const station of cycle.granted) {
      const y = COLUMN_HEAD + (station + 0.5) * this.rowHeight - size / 2;
      if (standing(this.run, cycle, station) === "granted") fill(context, colours.granted, x + 1, y, this.columnWidth - 2, size);
      else outline(context, colours.granted, x + 1, y, this.columnWidth - 2, size);
    }
  }

  // One bar for each row that asks; rows that are too low for a bar each are joined.
  paintAskers(context, cycle, x, colours) {
    const { stations } = this.run;
    const joined = this.rowHeight < 4;
    const thickness = joined ? this.rowHeight : Math.max(2, this.rowHeight * 0.36);
    for (let from = 0; from < stations; from++) {
      if (!asks(cycle, from)) continue;
      let to = from + 1;
      while (joined && to < stations && asks(cycle, to)) to++;
      const y = COLUMN_HEAD + from * this.rowHeight + (joined ? 0 : (this.rowHeight - thickness) / 2);
      fill(context, colours.waits, x, y, this.columnWidth, thickness + (to - from - 1) * this.rowHeight, joined ? 0.55 : 0.9);
      from = to - 1;
    }
  }
}

// A mark for each wait that a grant ended, the longest of each station, the waits of the cycle that is shown, the bound.
class Waits {
  constructor(run, holder) {
    this.run = run;
    this.height = 240;
    this.cycle = null;
    const [still, moving] = ["still", "moving"].map((name) => holder.querySelector(`.${name}`));
    makeCanvas(still, () => this.height, (...drawn) => this.paint(...drawn));
    this.repaint = makeCanvas(moving, () => this.height, (...drawn) => this.paintMoving(...drawn));
  }

  show(at) {
    this.cycle = this.run.cycles[at];
    this.repaint();
  }

  column(station) {
    const width = (this.width - GUTTER - 8) / this.run.stations;
    return { x: GUTTER + (station + 0.5) * width, width };
  }

  level(waited) {
    const [top, bottom] = [30, this.height - 22];
    return bottom - (waited / this.run.bound) * (bottom - top);
  }

  paint(context, width, colours) {
    this.width = width;
    context.clearRect(0, 0, width, this.height);
    this.paintAxes(context, colours);
    const size = Math.max(1.2, Math.min(5, this.column(0).width * 0.22));
    context.globalAlpha = size < 2 ? 0.4 : 1;
    for (const wait of this.run.left.values()) this.dot(context, wait, size + 1.5, colours.waits, false);
    context.globalAlpha = 1;
    for (const wait of this.run.ended.values()) this.dot(context, wait, size, colours.granted, true);
    this.paintLongest(context, colours);
  }

  paintAxes(context, colours) {
    const { bound, stations } = this.run;
    const step = roundStep(bound / 5);
    context.textAlign = "right";
    for (let waited = 0; waited <= bound; waited += step) {
      fill(context, colours.line, GUTTER, this.level(waited), this.width - GUTTER, 1);
      context.fillStyle = colours.muted;
      if (bound - waited > step / 2) context.fillText(number(waited), GUTTER - 6, this.level(waited));
    }
    context.textAlign = "center";
    const every = roundStep((stations * 34) / this.width);
    for (let station = 0; station < stations; station += every) context.fillText(station, this.column(station).x, this.height - 9);
    fill(context, colours.refused, GUTTER, this.level(bound) - 1, this.width - GUTTER, 2);
    context.fillStyle = colours.refused;
    context.textAlign = "right";
    context.fillText(number(bound), GUTTER - 6, this.level(bound));
    context.textAlign = "left";
    context.fillText(boundWords(this.run), GUTTER + 4, this.level(bound) - 12);
  }

  dot(context, { station, waited }, size, colour, full) {
    context.beginPath();
    context.arc(this.column(station).x, this.level(waited), size, 0, 2 * Math.PI);
    context.fillStyle = context.strokeStyle = colour;
    context.lineWidth = Math.min(1.5, size / 3);
    if (full) context.fill();
    else context.stroke();
  }

  paintLongest(context, colours) {
    const { longest } = this.run;
    longest.forEach((waited, station) => {
      if (waited === NONE) return;
      const { x, width } = this.column(station);
      const half = Math.max(0.6, Math.min(14, width * 0.42));
      fill(context, colours.ink, x - half, this.level(waited) - 1, 2 * half, 2);
    });
  }

  paintMoving(context, width, colours) {
    this.width = width;
    context.clearRect(0, 0, width, this.height);
    if (!this.cycle || this.cycle.refusal) return;
    const { waited, stations } = this.run;
    for (let station = 0; station < stations; station++) {
      if (!asks(this.cycle, station)) continue;
      const { x, width: space } = this.column(station);
      const half = Math.max(0.4, Math.min(10, space * 0.3));
      const top = this.level(waited[this.cycle.served * stations + station]);
      const granted = standing(this.run, this.cycle, station) === "granted";
      fill(context, granted ? colours.granted : colours.waits, x - half, top, 2 * half, this.level(0) - top, granted ? 0.75 : 0.6);
    }
  }
}

function boundWords(run) {
  if (run.bus) return `bound: ${plural(run.bound, "acknowledged cycle")}, one for each station`;
  const rounded = run.stations % run.picks ? ", rounded up" : "";
  return `bound: ${plural(run.bound, "cycle")} = ${plural(run.stations, "station")} / ${plural(run.picks, "pick")}${rounded}`;
}
