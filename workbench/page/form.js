// A nested form while it is drawn: its values' names, its regions' names, and boxes that know their line and their share.

function formOf(record, sheet, names, path) {
  const form = { record, sheet, names, path, kept: keptInputs(record, sheet), selects: new Map() };
  sheet.lines.forEach(line => line.word === "select" && form.selects.set(line.id, line));
  return form;
}

// What a value of the sheet is called in a place that belongs to a region, or to none. An input of a loop's body is called as the
// record's input that it is; where nesting left out an input and it cannot be told which, by a word of its own. A name that several
// regions have stands with its region outside of it. So no name means two values.
function valueIn(form, text, at) {
  const is = recordValue(form.kept, text);
  if (is === undefined) return text.replace(/^i/, "loop");
  if (text.startsWith("undef")) return "undef";
  const name = form.names.value(is), owner = /^[id](\d+)\./.exec(is);
  return owner && name !== is && Number(owner[1]) !== at && form.names.isShared(name) ? `${form.names.region(owner[1])}.${name}` : name;
}

const valuesIn = (form, texts, at) => texts.map(text => valueIn(form, text, at));

// Regions that nesting added have no name.
const regionName = (form, number) => number < form.record.regions.length ? form.names.region(number) : "";

const caseName = (select, k) => select.kind === "bool" ? (k ? "false" : "true") : k === select.cases.length - 1 ? "else" : String(k);

const isDear = (form, part) => form.path.right && part.times !== undefined;

// The share of the figure that a part takes with all that is in it.
const portion = (form, part) => isDear(form, part) ? percent(part.times * part.cost, form.sheet.figure) : "";

// A box with an id, a link to its line, the colour of a region and, on the dearest path, a stripe.
function boxed(form, line, id, owner, [x, y, w, h], ...content) {
  const group = element("a", { id, href: "#line-" + line.number, ...coloured(owner, form.record) });
  group.classList.add("box");
  group.append(tooltip(line.text), box(x, y, w, h));
  if (isDear(form, line)) {
    group.classList.add("dear");
    group.append(box(x, y, 5, h, { class: "stripe" }));
  }
  group.append(...content.flat().filter(Boolean));
  return group;
}

// Exits are defined in the order in which the walk from the entry leaves the regions that exit.
function exitOwner(form, node) {
  const { record, sheet } = form, order = [], seen = new Set();
  const walk = number => {
    if (seen.has(number)) return;
    seen.add(number);
    record.regions[number].targets.forEach(walk);
    if (record.regions[number].kind === "exit") order.push(number);
  };
  walk(record.entry);
  const exits = sheet.lines.filter(line => line.word === "exit").map(line => line.id).sort((a, b) => a - b);
  const owner = order[exits.indexOf(node.id)];
  return owner !== undefined && record.regions[owner].opcode === node.opcode ? owner : undefined;
}
