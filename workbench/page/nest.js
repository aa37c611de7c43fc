// The nested form as a structogram: boxes below each other, a select's cases side by side, a loop around its body.
// A part has its least width `min`, its least height `tall`, and draw(x, y, w, h), which fills the place it is given.

const ROW = FONT.line, STRIP = 19, BAR = 14, LETTERS = 46, ACROSS = 640;
const TITLE = 21, OPENING = 11, HEAD = TITLE + OPENING + 17;     // of a select

function roomFor(rows) {
  const wide = rows.map(row => width(row.text, "bold") + (row.right ? width(row.right) + 18 : 0));
  return Math.max(60, ...wide) + 2 * FONT.pad + 4;
}

function drawRows(rows, x, y, w) {
  return rows.flatMap((row, k) => [
    label(row.text, x + FONT.pad + 3, y + k * ROW, { class: row.class }),
    row.right && label(row.right, x + w - FONT.pad, y + k * ROW, { class: row.rightClass || "faint", "text-anchor": "end" }),
  ].filter(Boolean));
}

// Boxes below each other; the last takes the height that stays over.
function sequence(parts) {
  const tall = parts.reduce((sum, part) => sum + part.tall, 0);
  return {
    min: Math.max(0, ...parts.map(part => part.min)), tall,
    draw: (x, y, w, h) => parts.flatMap((part, k) => {
      const height = part.tall + (k === parts.length - 1 ? h - tall : 0);
      const drawn = part.draw(x, y, w, height);
      y += height;
      return drawn;
    }),
  };
}

// Boxes side by side, which share a width in proportion to what they need.
function columns(parts) {
  const min = parts.reduce((sum, part) => sum + part.min, 0);
  const widths = w => parts.map(part => w * part.min / min);
  return { min, tall: Math.max(...parts.map(part => part.tall)), widths, draw: (x, y, w, h) => parts.flatMap((part, k) => {
    const drawn = part.draw(x, y, widths(w)[k], h);
    x += widths(w)[k];
    return drawn;
  }) };
}

// What is said beside the lines of the sheet; on the dearest path with its stripe.
function note(dear, ...texts) {
  const rows = texts.map(text => ({ text: short(text, LETTERS), class: "faint" }));
  return { min: roomFor(rows), tall: rows.length * ROW + 8,
    draw: (x, y, w, h) => [element("g", { class: "note" }, box(x, y, w, h), dear && box(x, y, 5, h, { class: "stripe" }),
      ...drawRows(rows, x, y + 15, w))] };
}

function blockPart(form, node) {
  const owner = node.items[0].region;
  const told = item => short(instructionText(item, form.names, text => valueIn(form, text, item.region)), LETTERS);
  const rows = [{ text: regionName(form, owner), class: "title", right: portion(form, node), rightClass: "share" },
    ...node.items.map(item => ({ text: told(item), right: String(item.cost) }))];
  return { min: roomFor(rows), tall: rows.length * ROW + 10,
    draw: (x, y, w, h) => [boxed(form, node, "nest-node-" + node.id, owner, [x, y, w, h], drawRows(rows, x, y + 16, w))] };
}

function exitPart(form, node) {
  const owner = exitOwner(form, node);
  const rows = [{ text: "exit " + call(form.names.opcode(node.opcode), valuesIn(form, node.values, owner)), class: "title" }];
  const arrow = (x, y, h) => element("path", { class: "mark", d: `M${x + 22} ${y} L${x + 7} ${y + h / 2} L${x + 22} ${y + h}` });
  return { min: roomFor(rows) + 18, tall: ROW + 12,
    draw: (x, y, w, h) => [boxed(form, node, "nest-node-" + node.id, owner, [x, y, w, h],
      arrow(x, y, h), drawRows(rows, x + 18, y + h / 2 + 4, w - 18))] };
}

// The head of a select: its test and its share, below them lines that open the columns, below those the cases' names. The lines
// have a row of their own, so that they cross no text.
function selectHead(text, share, labels, widths, [x, y, w], dearest) {
  const split = x + w - widths[widths.length - 1], top = y + TITLE, low = y + TITLE + OPENING;
  const title = label(text, x + w / 2, y + 15, { class: "title", "text-anchor": "middle" });
  if (share) title.append(element("tspan", { class: "share", dx: 9 }, share));
  const drawn = [element("path", { class: "mark", d: `M${x} ${top} L${split} ${low} L${x + w} ${top}` }), title];
  let left = x;
  labels.forEach((name, k) => {
    drawn.push(label(name, left + widths[k] / 2, y + HEAD - 5, { "text-anchor": "middle", class: k === dearest ? "share" : "faint" }));
    left += widths[k];
    const above = split > x ? top + OPENING * Math.min(1, (left - x) / (split - x)) : low;
    if (k < labels.length - 1) drawn.push(element("line", { x1: left, x2: left, y1: above, y2: y + HEAD }));
  });
  return drawn;
}

function selectPart(form, node) {
  const labels = node.cases.map((_, k) => caseName(node, k));
  const bodies = node.bodies.map((body, k) => {
    const outs = body.out.map((out, place) => `n${node.id}.${place} = ${valueIn(form, out, body.id)}`);
    const part = casePart(form, body, outs);
    return { ...part, min: Math.max(part.min, width(labels[k]) + 24) };
  });
  const side = columns(bodies), share = portion(form, node);
  const text = short(valueIn(form, node.test) + (node.kind === "bool" ? " ?" : " = ?"), 40);
  return { min: Math.max(side.min, width(text, "bold") + width(share) + 9 + 2 * FONT.pad), tall: HEAD + side.tall, draw: (x, y, w, h) => {
    const head = selectHead(text, share, labels, side.widths(w), [x, y, w], isDear(form, node) ? node.dearest : -1);
    return [boxed(form, node, "nest-node-" + node.id, undefined, [x, y, w, HEAD], head), ...side.draw(x, y + HEAD, w, h - HEAD)];
  } };
}

// A loop's rows above and below its body: what its inputs are at first, what they become, and when it goes on.
function loopRows(form, node) {
  const inputs = node.region.inputs.map((_, k) => valueIn(form, `i${node.body}.${k}`, node.body));
  const limit = form.record.regions[node.body].limit, turns = turnsText(limit);
  const row = (name, arrow, to) => ({ text: short(`${name} ${arrow} ${valueIn(form, to, node.body)}`, LETTERS), class: "faint" });
  return [
    [{ text: "loop " + regionName(form, node.body), class: "title", right: portion(form, node), rightClass: "share" },
      ...inputs.map((name, k) => row(name, "=", node.first[k]))],
    [...inputs.map((name, k) => row(name, "←", node.region.out[k])),
      { text: `repeat while ${valueIn(form, node.repeat, node.body)}`, class: "title", right: turns }]];
}

function loopPart(form, node) {
  const [above, below] = loopRows(form, node);
  const inside = sequence([stripPart(form, node.region, false), ...children(form, node.region)]);
  const top = above.length * ROW + 10, bottom = below.length * ROW + 10;
  return { min: Math.max(inside.min + BAR, roomFor(above), roomFor(below)), tall: top + inside.tall + bottom, draw: (x, y, w, h) => [
    boxed(form, node, "nest-node-" + node.id, node.body, [x, y, w, h],
      drawRows(above, x, y + 16, w), drawRows(below, x, y + h - bottom + 16, w)),
    ...inside.draw(x + BAR, y + top, w - BAR, h - top - bottom)] };
}

// A strip, with the region's name if it shall have one: what its line of the sheet is linked to.
function stripPart(form, region, named) {
  const name = named ? regionName(form, region.id) : "";
  return { min: width(name) + 24, tall: name ? STRIP : 6, draw: (x, y, w, h) => [boxed(form, region, "nest-region-" + region.id,
    region.id, [x, y, w, h], name && label(name, x + FONT.pad + 3, y + 14, { class: "faint" }))] };
}

// A case of a select: its name, its children, and what it hands out.
function casePart(form, region, outs) {
  const inside = children(form, region);
  if (outs.length) inside.push(note(isDear(form, region), ...outs));
  if (!inside.length) inside.push(note(isDear(form, region), "nothing"));
  return sequence([stripPart(form, region, true), ...inside]);
}

const PARTS = { block: blockPart, select: selectPart, loop: loopPart, exit: exitPart };
const children = (form, region) => region.children.map(node => PARTS[node.word](form, node));

// The entry, or for a leftover any region that was not claimed, with what follows it.
function rootPart(form, region) {
  const { sheet } = form, inputs = region.inputs.map((_, k) => valueIn(form, `i${region.id}.${k}`, region.id));
  const title = [{ text: call(regionName(form, region.id), inputs), class: "title", right: region === sheet.roots[0] ? "entry" : "" }];
  const top = { min: roomFor(title), tall: ROW + 10, draw: (x, y, w, h) =>
    [boxed(form, region, "nest-region-" + region.id, region.id, [x, y, w, h], drawRows(title, x, y + 17, w))] };
  const dear = isDear(form, region), returned = valuesIn(form, region.out, region.id).join(", ");
  const end = { whole: () => note(dear, returned ? "return " + returned : "return"),
    closed: () => note(dear, "no run returns"), leftover: () => branchesPart(form, region) };
  return sequence([top, ...children(form, region), end[sheet.outcome]()]);
}

function drawNest(form) {
  return shelved(form.sheet.roots.map(region => rootPart(form, region)));
}

// Parts beside each other, in rows of at most ACROSS or the widest part.
function shelved(parts) {
  const most = Math.max(ACROSS, ...parts.map(part => part.min));
  const drawn = [];
  let x = 8, y = 8, tall = 0, wide = 0;
  for (const part of parts) {
    const w = Math.max(180, part.min);
    if (x > 8 && x + w > most + 8) [x, y, tall] = [8, y + tall + 16, 0];
    drawn.push(...part.draw(x, y, w, part.tall));
    x += w + 16;
    [tall, wide] = [Math.max(tall, part.tall), Math.max(wide, x)];
  }
  return picture("nest", wide - 8, y + tall + 8, arrows(), ...drawn);
}
