// Canvases in the colours of the page.
const SMALL = "11px system-ui, sans-serif";

// A canvas at the screen's own resolution. It is measured and painted anew when the window, its width or the colours change; what this
// returns paints it anew as it is.
function makeCanvas(canvas, measure, paint) {
  const context = canvas.getContext("2d");
  let [width, colours] = [0, null];
  const repaint = () => width && paint(context, width, colours);
  const fit = () => {
    width = canvas.parentElement.clientWidth;
    const height = measure(width);
    canvas.width = Math.round(width * devicePixelRatio);
    canvas.height = Math.round(height * devicePixelRatio);
    canvas.style.height = `${height}px`;
    colours = palette();
    context.setTransform(devicePixelRatio, 0, 0, devicePixelRatio, 0, 0);
    Object.assign(context, { font: SMALL, textBaseline: "middle" });
    repaint();
  };
  new ResizeObserver(fit).observe(canvas.parentElement);
  window.addEventListener("resize", fit);
  matchMedia("(prefers-color-scheme: dark)").addEventListener("change", fit);
  return repaint;
}

function palette() {
  const style = getComputedStyle(document.documentElement);
  const names = { paper: "paper", panel: "panel", ink: "ink", muted: "muted", line: "line", waits: "waits", waitsPale: "waits-pale" };
  Object.assign(names, { granted: "granted", onGranted: "on-granted", head: "head", refused: "refused" });
  return Object.fromEntries(Object.entries(names).map(([name, property]) => [name, style.getPropertyValue(`--${property}`).trim()]));
}

function fill(context, colour, x, y, width, height, alpha = 1) {
  context.globalAlpha = alpha;
  context.fillStyle = colour;
  context.fillRect(x, y, width, height);
  context.globalAlpha = 1;
}

// Only its sides where it is too low to be seen through.
function outline(context, colour, x, y, width, height) {
  for (const side of [x, x + width - 1.5]) fill(context, colour, side, y, 1.5, height);
  if (height > 6) for (const side of [y, y + height - 1.5]) fill(context, colour, x, side, width, 1.5);
}

// The least of 1, 2, 5, 10, 20 and so on that is not below a number.
function roundStep(least) {
  const power = 10 ** Math.floor(Math.log10(Math.max(1, least)));
  return [1, 2, 5, 10].find((digit) => digit * power >= least) * power;
}
