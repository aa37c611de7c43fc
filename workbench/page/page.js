// The page: facts, both pictures, the sheet and the record, each line linked to its box.

const html = (name, attributes = {}, ...children) => {
  const made = document.createElement(name);
  for (const [key, value] of Object.entries(attributes)) if (value !== undefined) made.setAttribute(key, value);
  made.append(...children.filter(child => child !== "" && child !== undefined && child !== null));
  return made;
};

const OUTCOMES = {
  whole: "All of it is nested.", closed: "All of it is nested; no run returns.",
  leftover: "Nested in part: what is left are branches between the parts.",
  untouched: "Left as it is: something leads back to the entry.", refused: "Not nested.",
};

function mostAttempts(record) {
  const live = [...reached(record)];
  return 1 + live.reduce((sum, number) => sum + record.regions[number].targets.length, 0) + live.length * (2 * live.length - 1);
}

function seconds(figure, clock) {
  const time = figure / clock;
  const [unit, scale] = time >= 1 ? ["s", 1] : time >= 1e-3 ? ["ms", 1e3] : time >= 1e-6 ? ["µs", 1e6] : ["ns", 1e9];
  return `${(time * scale).toPrecision(4).replace(/\.?0+$/, "")} ${unit}`;
}

function fact(name, value, ...more) {
  return html("div", { class: "fact", "data-fact": name }, html("dt", {}, name), html("dd", {}, html("b", {}, value), ...more));
}

function facts(record, sheet, options) {
  const all = [];
  if (!sheet.refused) {
    const most = record && mostAttempts(record);
    all.push(fact("figure", sheet.figure === null ? "none" : grouped(sheet.figure),
      sheet.figure !== null && options.clock ? ` = ${seconds(sheet.figure, options.clock)} at ${options.clockText}` : ""));
    all.push(fact("attempts", grouped(sheet.attempts), ` of at most ${grouped(most)} `,
      html("span", { class: "meter" }, html("span", { style: `width: ${100 * sheet.attempts / most}%` }))));
    all.push(fact("twice", String(sheet.twice)));
  }
  if (record) all.push(fact("regions", String(record.regions.length)), fact("test cost", String(record.test)));
  if (options.words) all.push(fact("words", String(options.words)));
  return html("dl", { class: "facts" }, ...all);
}

function boxOf(line) {
  if (line.word === "defer") return "nest-defer-" + line.number;
  return (line.word === "region" ? "nest-region-" : "nest-node-") + line.id;
}

function listing(title, rows, first) {
  return html("section", { class: "listing" }, html("h2", {}, title), movedNote(rows), html("ol", { start: first }, ...rows));
}

// A line of the sheet as it is. Behind an input that is not the record's input of that number stands what it is.
function sheetText(text, form) {
  return text.split(/(\bi\d+\.\d+)/).map((part, k) =>
    k % 2 && form && recordValue(form.kept, part) !== part ? html("span", { class: "moved", "data-is": valueIn(form, part) }, part) : part);
}

function sheetRows(sheet, form) {
  const rows = [html("li", { id: "line-1" }, sheet.first)];
  (sheet.lines || []).forEach(line => rows.push(html("li", { id: "line-" + line.number, "data-box": boxOf(line) },
    html("a", { href: "#" + boxOf(line) }, ...sheetText(line.text, form)))));
  return rows;
}

function movedNote(rows) {
  return rows.some(row => row.querySelector(".moved")) ? html("p", { class: "legend" },
    "Nesting left out inputs of a loop that do not change. Where the sheet's number is then another than the record's, ",
    "its name follows it in brackets.") : "";
}

function recordRows(record) {
  let region = null;
  return record.lines.map(line => {
    const first = line.region !== null && line.region !== region;
    region = line.region;
    return html("li", { id: first ? "record-" + region : undefined, "data-box": region === null ? undefined : "graph-" + region },
      region === null ? line.text : html("a", { href: "#graph-" + region }, line.text));
  });
}

function legend(sheet, path) {
  if (path.right) {
    const said = " the dearest path, as the figure counts it: of each select the dearest case. Each box has its share.";
    return html("p", { class: "legend" }, html("span", { class: "swatch" }), said);
  }
  return sheet.figure !== null && sheet.figure !== undefined
    ? html("p", { class: "legend wrong" }, "The costs in the record do not add up to the program's figure, so no path is marked.") : null;
}

function panel(title, drawn) {
  const scroll = html("div", { class: "scroll", tabindex: 0 }, drawn);
  return html("figure", {}, html("figcaption", {}, title, viewer(scroll, drawn)), scroll);
}

// Pointing at a line or a box marks the other.
function linkUp(place) {
  const mark = (row, yes) => {
    const box = document.getElementById(row.dataset.box);
    [row, box].forEach(part => part && part.classList.toggle("pointed", yes));
  };
  place.querySelectorAll("li[data-box]").forEach(row => {
    const box = document.getElementById(row.dataset.box);
    [row, box].forEach(part => part && ["enter", "leave"].forEach(what =>
      part.addEventListener("mouse" + what, () => mark(row, what === "enter"))));
  });
}

// On paper the pictures take what the listings, in two columns each, leave of a landscape A4 sheet.
function pictureHeight(sheet, record, explained) {
  const rows = Math.ceil(Math.max((sheet.lines || []).length + 1, record.lines.length) / 2);
  const told = explained ? 7 + 5 * explained.split("\n").length : 0;
  return Math.max(70, Math.min(125, 142 - told - 2.45 * rows));
}

// Draws a routine into a place of the page from the texts that `show` and `nest` print.
function drawRoutine(place, texts, options = {}) {
  const sheet = readSheet(texts.sheet), names = readNames(texts.names || "");
  const record = texts.record ? readRecord(texts.record) : null;
  const nested = record && !sheet.refused && sheet.outcome !== "untouched";
  const path = nested ? priceSheet(sheet, record) : { regions: new Map(), edges: new Set(), right: false };
  const form = nested ? formOf(record, sheet, names, path) : null;
  const pictures = record ? [panel("Graph", drawGraph(record, sheet, names, path))] : [];
  if (nested) pictures.push(panel("Nest", drawNest(form)));
  const wide = pictures.some(one => one.querySelector("svg").width.baseVal.value > 980);    // then one below the other
  const badge = html("span", { class: "badge " + sheet.outcome }, sheet.refused ? sheet.first : sheet.outcome);
  place.append(
    html("header", {}, html("h1", {}, options.title || "Routine"), badge, html("p", {}, OUTCOMES[sheet.outcome])),
    facts(record, sheet, options),
    ...(texts.explained ? [html("p", { class: "explained" }, texts.explained)] : []),
    ...[legend(sheet, path)].filter(Boolean),
    html("div", { class: "pictures" + (pictures.length > 1 ? " both" : "") + (wide ? " wide" : "") }, ...pictures),
    html("div", { class: "listings" }, listing("Sheet", sheetRows(sheet, form), 1),
      ...record ? [listing("Record", recordRows(record), 1)] : []));
  if (record) place.style.setProperty("--picture-height", pictureHeight(sheet, record, texts.explained) + "mm");
  linkUp(place);
}
window.drawRoutine = drawRoutine;
