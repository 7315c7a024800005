// For the test: what is to be seen on a page, read off its drawings. Of the ring its parts are read, of canvases their pixels.
var near = (pixel, hex, by) => [1, 3, 5].every((at, i) => Math.abs(parseInt(hex.slice(at, at + 2), 16) - pixel[i]) < by);
var steps = [...Array(40).keys()].map((n) => n / 40);
var rounded = (angle, stations) => ((Math.round((angle / 360) * stations) % stations) + stations) % stations;

// A canvas as it stands, by places in the units of the page. A pixel that is hardly drawn is none.
class Pixels {
  constructor(canvas) {
    this.image = canvas.getContext("2d").getImageData(0, 0, canvas.width, canvas.height);
    this.scale = canvas.width / canvas.getBoundingClientRect().width;
    this.height = canvas.height / this.scale;
    this.width = canvas.width / this.scale;
  }

  at(x, y, least = 150) {
    const at = 4 * (Math.floor(y * this.scale) * this.image.width + Math.floor(x * this.scale));
    return this.image.data[at + 3] >= least ? this.image.data.slice(at, at + 3) : [-999, -999, -999];
  }

  share(points, hex, least) {
    return points.filter(([x, y]) => near(this.at(x, y, least), hex, 40)).length / points.length;
  }

  // The first row from above, or the last, in which a colour is seen at one place, or all along.
  row(x, hex, least) {
    for (let y = 0; y < this.height; y++) if (near(this.at(x, y, least), hex, 40)) return y;
    return null;
  }

  line(hex, from, to, step) {
    const across = [...Array(300).keys()].map((n) => this.width * (0.15 + 0.0028 * n));
    for (let y = from; y !== to; y += step) if (this.share(across.map((x) => [x, y]), hex) > 0.25) return y;
    return null;
  }
}

// G for granted, u for granted and not acknowledged, a for one that asks and waits, a point for one that does not ask.
function colourOf({ fill, stroke }) {
  const colours = palette();
  const is = (colour, hex) => near(colour.match(/\d+/g).map(Number), hex, 3);
  if (is(fill, colours.granted)) return "G";
  return is(stroke, colours.granted) ? "u" : is(stroke, colours.waits) ? "a" : ".";
}

function lookAtRing() {
  const stations = [...document.querySelectorAll("#ring .station")];
  const of = (name) => stations.filter((e) => e.classList.contains(name)).map((e) => Number(e.dataset.station));
  const at = (name) => rounded(parseFloat(document.querySelector(`#ring .hand.${name}`).style.transform.slice(7)), stations.length);
  const byPlace = (x, y) => rounded((Math.atan2(y, x) * 180) / Math.PI + 90, stations.length);
  const turns = [...document.querySelectorAll("#ring .turn")].map((e) => [byPlace(Number(e.getAttribute("x")), Number(e.getAttribute("y"))), e.textContent]);
  const arc = document.querySelector("#ring .order")?.getAttribute("d").match(/-?[\d.e-]+/g).map(Number);
  const middle = [...document.querySelectorAll("#ring > text")].map((e) => e.textContent);
  const box = document.getElementById("ring").getBoundingClientRect();
  // Where each station stands, by its number, and in which colours.
  const stands = stations.map((e) => {
    const body = e.querySelector(".body").getBoundingClientRect();
    return byPlace((body.left + body.right - box.left - box.right) / 2, (body.top + body.bottom - box.top - box.bottom) / 2);
  });
  const inPlace = stations.every((e, i) => Number(e.querySelector(".number").textContent) === i && (stations.length === 1 || stands[i] === i));
  const painted = stations.map((e) => colourOf(getComputedStyle(e.querySelector(".body")))).join("");
  const none = Boolean(document.querySelector("#ring .head.none"));
  const seen = { granted: of("granted"), unended: of("unended"), waits: of("waits"), head: at("head"), next: at("next"), none, turns, middle, inPlace, painted };
  seen.still = Boolean(document.querySelector("#ring .next.same"));
  // Where the arc begins and ends, whether it is more than half of the ring, and whether it goes clockwise.
  seen.arc = arc ? [byPlace(arc[0], arc[1]), byPlace(arc[7], arc[8]), arc[5], arc[6]] : null;
  return seen;
}

function lookAtCell(stage, pixels, colours, station, found) {
  const { x, y } = stage.corner(station);
  const { cell } = stage;
  const square = stage.columns > 16;
  const [edge, half] = [cell * (square ? 0.2 : 0.12), cell / 2];
  const onCircle = (n) => [x + half + (half - edge) * Math.cos(7 * n), y + half + (half - edge) * Math.sin(7 * n)];
  const border = steps.map((n) => (square ? [x + edge, y + cell * (0.25 + 0.5 * n)] : onCircle(n)));
  const inside = pixels.at(x + half, y + cell * (square ? 0.5 : 0.21));
  if (near(inside, colours.granted, 12)) found.granted.push(station);
  else if (near(inside, colours.waitsPale, 12)) found.waits.push(station);
  else if (pixels.share(border, colours.granted) > 0.3) {
    found.granted.push(station);
    found.unended.push(station);
  }
  const sides = steps.flatMap((n) => [x + 1, x + cell - 1.01].map((side) => [side, y + 3 + (cell - 6) * n]));
  const framed = pixels.share(sides, colours.head, 50);
  if (framed > 0.9) found.solid.push(station);
  else if (framed > 0.25) found.dashed.push(station);
  else if (near(pixels.at(x + 1, y + 1, 20), colours.head, 40)) found.tinted.push(station);
}

function lookAtGrid() {
  const { stage } = player;
  const found = { granted: [], unended: [], waits: [], solid: [], dashed: [], tinted: [] };
  const [pixels, colours] = [new Pixels(stage.canvas), palette()];
  for (let station = 0; station < stage.run.stations; station++) lookAtCell(stage, pixels, colours, station, found);
  const [head, next] = [found.solid[0] ?? 0, found.dashed[0] ?? found.solid[0] ?? 0];
  const { texts } = stage.canvas;
  const has = (station) => {
    const [{ x, y }, half] = [stage.corner(station), stage.cell / 2];
    return texts.some((t) => t.text === String(station) && Math.hypot(t.x - x - half, t.y - y - half) < 2);
  };
  found.numbered = [...Array(stage.run.stations).keys()].filter(has).length;
  const row = (y) => Math.round((y - stage.corner(0).y) / stage.cell - 0.5);
  found.labels = texts.filter((t) => /[a-z]/.test(t.text)).map((t) => [t.text, Math.round(t.y - stage.corner(0).y)]);
  found.cell = stage.cell;
  found.rows = texts.filter((t) => t.x < stage.left).every((t) => Number(t.text) === row(t.y) * stage.columns);
  return { ...found, none: found.solid.length === 0, still: found.dashed.length === 0, head, next };
}

// The fields of the run that are to be seen, a text for each column, and which of the columns the frame is around.
function lookAtTimeline() {
  const [canvas, cursor] = [document.querySelector(".cells"), document.querySelector(".cursor").getBoundingClientRect()];
  const [box, pixels, colours] = [canvas.getBoundingClientRect(), new Pixels(canvas), palette()];
  const { stations } = player.run;
  const letter = (pixel) => Object.entries({ G: colours.granted, a: colours.waits, R: colours.refused }).find(([, hex]) => near(pixel, hex, 24))?.[0] ?? ".";
  const [top, width] = [box.height - player.timeline.rowHeight * stations, cursor.width];
  const at = Math.round((cursor.left - box.left - GUTTER) / width);
  const fields = [];
  for (let x = GUTTER + width / 2; x + width / 2 <= box.width; x += width) {
    const rows = [...Array(stations).keys()].map((station) => top + ((station + 0.5) * (box.height - top)) / stations);
    fields.push(rows.map((y) => letter(pixels.at(x, y))).join(""));
  }
  const texts = canvas.texts.map((t) => ({ ...t, column: Math.round((t.x - GUTTER) / width - 0.5), row: Math.round((t.y - top) / player.timeline.rowHeight - 0.5) }));
  const numbers = texts.filter((t) => t.y < top).map((t) => [t.column, t.text]);
  const rows = texts.filter((t) => t.y >= top).every((t) => Number(t.text) === t.row);
  const later = document.querySelector(".later").getBoundingClientRect();
  const pale = [(later.left - box.left - GUTTER) / width, later.width / width].map(Math.round);
  return { at, fields, numbers, rows, pale };
}

// How high the marks stand between the line of no wait, 0, and that of the bound, 1: of each station the longest, and the bar.
function lookAtWaits() {
  const [still, moving, colours] = [new Pixels(document.querySelector(".still")), new Pixels(document.querySelector(".moving")), palette()];
  const bound = still.line(colours.refused, 0, still.height, 1);
  const none = still.line(colours.line, still.height - 1, 0, -1);
  const level = (y) => (y === null ? null : (none - y) / (none - bound));
  const columns = [...Array(player.run.stations).keys()].map((station) => player.waits.column(station).x);
  const bars = columns.map((x) => [colours.waits, colours.granted].map((hex) => level(moving.row(x, hex, 100))));
  const longest = columns.map((x) => level(still.row(x, colours.ink, 100)));
  const { texts } = document.querySelector(".still");
  const nearest = (x) => columns.reduce((best, at, i) => (Math.abs(at - x) < Math.abs(columns[best] - x) ? i : best), 0);
  const named = texts.filter((t) => t.y > none).every((t) => Number(t.text) === nearest(t.x));
  const scaled = texts.filter((t) => t.y <= none && /^[\d,]+$/.test(t.text)).map((t) => [Number(t.text.replaceAll(",", "")), level(t.y)]);
  const words = texts.filter((t) => /[a-z]/.test(t.text)).map((t) => t.text);
  return { pixel: 1 / (none - bound), named, scaled, words, longest, waiting: bars.map(([waits]) => waits), ended: bars.map(([, granted]) => granted) };
}

// Whether the marks of some waits are drawn, each a station, how many times the bound, and whether a grant ended it.
function lookAtMarks(waits) {
  const [still, colours] = [new Pixels(document.querySelector(".still")), palette()];
  const [bound, none] = [still.line(colours.refused, 0, still.height, 1), still.line(colours.line, still.height - 1, 0, -1)];
  return waits.map(([station, height, isEnded]) => {
    const { x, width } = player.waits.column(station);
    const [y, size] = [none - height * (none - bound), Math.max(1.2, Math.min(5, width * 0.22))];
    if (isEnded) return near(still.at(x, y + 2.5), colours.granted, 40);
    return [-1, -0.5, 0, 0.5, 1].some((by) => near(still.at(x, y - size - 1.5 + by, 60), colours.waits, 60));
  });
}

// How long the page takes to show a cycle, for up to three hundred of them, the slowest last.
function timeCycles() {
  const times = [];
  for (let at = 0; at < Math.min(300, player.run.cycles.length); at++) {
    const start = performance.now();
    player.go(at);
    times.push(performance.now() - start);
  }
  return times.sort((a, b) => a - b);
}

function lookAtPage(withPlots) {
  const seen = document.getElementById("ring") ? lookAtRing() : lookAtGrid();
  for (const id of ["given", "printed", "words", "line-title", "position", "acknowledge"]) seen[id] = document.getElementById(id).textContent;
  seen.slider = Number(document.getElementById("slider").value);
  seen.beyond = document.querySelector("#given + i").textContent;
  if (withPlots) Object.assign(seen, { timeline: lookAtTimeline(), heights: lookAtWaits() });
  return seen;
}

// What is seen of so many cycles, one after the other by the page's own button.
function lookAtCycles(count, withPlots) {
  return [...Array(count)].map(() => {
    const seen = lookAtPage(withPlots);
    document.getElementById("forward").click();
    return seen;
  });
}

// Plays for three seconds and tells the times between frames, in order of length, and how many cycles were played.
function playAt(speed) {
  const [start, times] = [Number(document.getElementById("slider").value), []];
  document.getElementById("speed").value = speed;
  document.getElementById("play").click();
  return new Promise((done) => {
    const tick = (now) => {
      times.push(now);
      if (now - times[0] < 3000 && document.body.classList.contains("playing")) return requestAnimationFrame(tick);
      if (document.body.classList.contains("playing")) document.getElementById("play").click();
      const gaps = times.slice(1).map((time, i) => time - times[i]);
      const played = Number(document.getElementById("slider").value) - start;
      done({ gaps: gaps.sort((a, b) => a - b), played, seconds: (now - times[0]) / 1000 });
    };
    requestAnimationFrame(tick);
  });
}
