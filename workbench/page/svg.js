// Making SVG: elements, measured text, boxes in the colour of their region.

const NAMESPACE = "http://www.w3.org/2000/svg";
const FONT = { size: 12, line: 17, pad: 7, family: "ui-monospace, 'DejaVu Sans Mono', Menlo, Consolas, monospace" };

function element(name, attributes = {}, ...children) {
  const made = document.createElementNS(NAMESPACE, name);
  for (const [key, value] of Object.entries(attributes)) if (value !== undefined) made.setAttribute(key, value);
  made.append(...children.filter(Boolean));
  return made;
}

const canvas = document.createElement("canvas").getContext("2d");

function width(text, weight = "normal") {
  canvas.font = `${weight} ${FONT.size}px ${FONT.family}`;
  return Math.ceil(canvas.measureText(text).width);
}

// Text cut to so many letters; the whole of it stands in the tooltip.
const short = (text, most) => text.length > most ? text.slice(0, most - 1) + "…" : text;

function label(text, x, y, attributes = {}) {
  return element("text", { x, y, ...attributes }, text);
}

const tooltip = text => element("title", {}, text);

// Neighbouring numbers get hues far apart.
const hue = region => Math.round((region * 137.508 + 210) % 360);

function box(x, y, w, h, attributes = {}) {
  return element("rect", { x, y, width: Math.max(w, 0), height: Math.max(h, 0), ...attributes });
}

// A colour by region: the style sheet makes fill and line out of the hue, for light, dark and print.
function coloured(region, record) {
  return region !== undefined && region < record.regions.length ? { class: "own", style: `--hue: ${hue(region)}` } : { class: "added" };
}

const percent = (part, whole) => {
  if (!whole || !part) return "";
  const value = 100 * part / whole;
  return value < 0.1 ? "<0.1%" : (value < 9.95 ? value.toFixed(1) : Math.round(value)) + "%";
};

const grouped = number => number.toLocaleString("en-US");

function picture(name, w, h, ...children) {
  const [wide, tall] = [Math.ceil(w), Math.ceil(h)];
  return element("svg", { class: name, viewBox: `0 0 ${wide} ${tall}`, width: wide, height: tall, role: "group", "aria-label": name,
    "font-size": FONT.size, "font-family": FONT.family, style: `--natural: ${wide}px` }, ...children);
}
