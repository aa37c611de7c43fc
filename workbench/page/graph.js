// The record's graph: a box for each region, an arrow for each target, laid out in layers by dagre.

const MOST_ROWS = 10;       // of instructions in a box; the record's text has them all

function instructionRows(region, names) {
  const rows = region.blocks.flatMap((block, k) => block.map((item, place) =>
    ({ text: instructionText(item, names, names.value), cost: item.cost, first: k > 0 && place === 0 })));
  if (rows.length <= MOST_ROWS) return rows;
  const rest = rows.splice(MOST_ROWS - 1);
  return [...rows, { text: `… ${rest.length} more`, cost: rest.reduce((sum, row) => sum + row.cost, 0) }];
}

function endText(region, names) {
  const values = region.values.map(names.value);
  if (region.kind === "select bool") return values[0] + " ?";
  if (region.kind === "select num") return values[0] + " = ?";
  if (region.kind === "exit") return "exit " + call(names.opcode(region.opcode), values);
  return region.kind === "branch" ? "" : [region.kind, values.join(", ")].join(" ").trim();
}

// The regions that head a loop: a way leads back to them, or they have an exit list.
function loopHeads(record) {
  const heads = new Set(record.regions.filter(region => region.exits.length).map(region => region.number));
  const onTheWay = new Set(), done = new Set();
  const walk = number => {
    onTheWay.add(number);
    for (const target of record.regions[number].targets) {
      if (onTheWay.has(target)) heads.add(target);
      else if (!done.has(target)) walk(target);
    }
    onTheWay.delete(number);
    done.add(number);
  };
  [record.entry, ...record.regions.keys()].forEach(start => done.has(start) || walk(start));
  return heads;
}

const turnsText = limit => `≤ ${grouped(limit)} ${limit === 1 ? "turn" : "turns"}`;

function regionRows(region, names, heads) {
  const rows = instructionRows(region, names), end = endText(region, names);
  if (end) rows.push({ text: end, end: true });
  const turns = region.limit > 1 || heads.has(region.number) ? turnsText(region.limit) : "";
  const exits = region.exits.length ? "exits " + region.exits.map(names.region).join(", ") : "";
  if (turns || exits) rows.push({ text: [turns, exits].filter(Boolean).join(", "), faint: true });
  return rows;
}

function regionTitle(region, record, names) {
  const inputs = region.inputs.map((type, k) => names.value(`i${region.number}.${k}`));
  return (record.entry === region.number ? "▸ " : "") + call(names.region(region.number), inputs);
}

function regionBox(region, record, names, heads) {
  const title = short(regionTitle(region, record, names), 44);
  const rows = regionRows(region, names, heads).map(row => ({ ...row, shown: short(row.text, 46) }));
  const widths = rows.map(row => width(row.shown) + (row.cost !== undefined ? width(" " + row.cost) + 12 : 0));
  const top = width(title, "bold") + width("100.0%") + 12;
  return { title, rows, width: Math.max(90, top, ...widths) + 2 * FONT.pad + 3, height: (rows.length + 1) * FONT.line + 2 * FONT.pad };
}

function drawRegion(region, place, record, sheet, path) {
  const left = place.x - place.width / 2, top = place.y - place.height / 2, right = left + place.width - FONT.pad;
  const group = element("a", { id: "graph-" + region.number, href: "#record-" + region.number, ...coloured(region.number, record) });
  group.classList.add("box");
  const on = path.right && path.regions.has(region.number);
  if (on) group.classList.add("dear");
  if (!place.live) group.classList.add("unreached");
  group.append(tooltip(`region ${region.number}: ${regionTitle(region, record, place.names)}`),
    box(left, top, place.width, place.height, { rx: 4 }));
  if (on) group.append(box(left, top, 5, place.height, { class: "stripe" }));
  let y = top + FONT.pad + FONT.size;
  group.append(label(place.title, left + FONT.pad + 3, y, { class: "title" }));
  const portion = on ? percent(path.regions.get(region.number), sheet.figure) : "";
  if (portion) group.append(label(portion, right, y, { class: "share", "text-anchor": "end" }));
  for (const row of place.rows) {
    y += FONT.line;
    const above = y - FONT.size;
    if (row.first || row.end) group.append(element("line", { x1: left, x2: left + place.width, y1: above, y2: above }));
    group.append(label(row.shown, left + FONT.pad + 3, y, { class: row.faint ? "faint" : "" }));
    if (row.cost !== undefined) group.append(label(String(row.cost), right, y, { class: "faint", "text-anchor": "end" }));
  }
  return group;
}

// The label of an edge: which places of the test lead there, and what is passed.
function edgeLabel(region, target, names) {
  const last = region.targets.length - 1;
  const places = region.targets.flatMap((to, k) => to === target ? [k] : []);
  let text = "";
  if (region.kind === "select bool") text = places.map(k => k ? "false" : "true").join(", ");
  if (region.kind === "select num") text = places.map(k => k === last ? "else" : k).join(", ");
  const passed = region.passed.get(target).map(names.value).join(", ");
  return short([text, passed && "(" + passed + ")"].filter(Boolean).join(" "), 40);
}

function curve(points) {
  const at = p => p.x.toFixed(1) + " " + p.y.toFixed(1);
  const between = (p, q) => ({ x: (p.x + q.x) / 2, y: (p.y + q.y) / 2 });
  let d = "M" + at(points[0]);
  for (let k = 1; k < points.length - 1; k++) {
    d += " Q" + at(points[k]) + " " + at(k === points.length - 2 ? points[k + 1] : between(points[k], points[k + 1]));
  }
  return points.length === 2 ? d + " L" + at(points[1]) : d;
}

// An edge's line and its label. All labels are drawn above all lines.
function drawEdge(edge, on, back) {
  const kind = (on ? " dear" : "") + (back ? " back" : "");
  const line = element("g", { class: "edge" + kind },
    element("path", { d: curve(edge.points), "marker-end": on ? "url(#arrow-dear)" : "url(#arrow)" }));
  if (!edge.text) return [line];
  const w = width(edge.text) + 6;
  return [line, element("g", { class: "edge-label" + kind }, box(edge.x - w / 2, edge.y - 9, w, 17, { class: "paper", rx: 3 }),
    label(edge.text, edge.x, edge.y + 4, { "text-anchor": "middle" }))];
}

function reached(record) {
  const found = new Set([record.entry]);
  for (const number of found) record.regions[number].targets.forEach(target => found.add(target));
  return found;
}

function arrows() {
  const shape = { viewBox: "0 0 8 8", refX: 7.5, refY: 4, markerWidth: 8, markerHeight: 8, orient: "auto", markerUnits: "userSpaceOnUse" };
  const arrow = id => element("marker", { id, ...shape }, element("path", { d: "M0 0 L8 4 L0 8 z" }));
  return element("defs", {}, arrow("arrow"), arrow("arrow-dear"));
}

function drawGraph(record, sheet, names, path) {
  const layout = new dagre.graphlib.Graph().setGraph({ rankdir: "TB", nodesep: 28, ranksep: 30, edgesep: 14, marginx: 8, marginy: 8 });
  const live = reached(record), heads = loopHeads(record);
  for (const region of record.regions) {
    layout.setNode(region.number, { ...regionBox(region, record, names, heads), live: live.has(region.number), names });
  }
  for (const region of record.regions) {
    for (const target of new Set(region.targets)) {
      const text = edgeLabel(region, target, names);
      layout.setEdge(region.number, target, { text, width: text ? width(text) + 8 : 0, height: text ? 17 : 0, labelpos: "c" });
    }
  }
  dagre.layout(layout);
  const edges = layout.edges().map(({ v, w }) => {
    const back = layout.node(w).y <= layout.node(v).y;
    return drawEdge(layout.edge(v, w), path.right && path.edges.has(v + ">" + w), back);
  });
  const boxes = record.regions.map(region => drawRegion(region, layout.node(region.number), record, sheet, path));
  return picture("graph", layout.graph().width, layout.graph().height, arrows(), ...edges.map(([line]) => line), ...boxes,
    ...edges.map(([, text]) => text));
}
