// For the test: runs before a page's own scripts and keeps, with each canvas, the texts that stand on it.
for (const name of ["clearRect", "fillText"]) {
  const own = CanvasRenderingContext2D.prototype[name];
  CanvasRenderingContext2D.prototype[name] = function (...given) {
    if (name === "clearRect") this.canvas.texts = [];
    else (this.canvas.texts ??= []).push({ text: String(given[0]), x: given[1], y: given[2] });
    return own.apply(this, given);
  };
}
