// A leftover's sets: the branches that they stand for, one beside the other under the region that they leave.

// A condition as its alternatives, each a list of [select, case]: m3[t,f] is one, that select 3 took case 0.
function alternatives(text) {
  let at = 0;
  const read = () => {
    const letter = text[at++];
    if (letter === "t") return [[]];
    if (letter !== "m") return [];
    const node = /^\d+/.exec(text.slice(at))[0], found = [];
    at += node.length;
    for (let k = 0; text[at] !== "]"; k++) {
      at++;                                     // the bracket or the comma
      read().forEach(rest => found.push([[Number(node), k], ...rest]));
    }
    at++;
    return found;
  };
  return read();
}

function conditionRows(form, condition) {
  const step = ([node, k]) => {
    const select = form.selects.get(node);
    return select ? `${valueIn(form, select.test)} is ${caseName(select, k)}` : `select ${node} took ${k}`;
  };
  const ways = alternatives(condition).map(steps => steps.map(step).join(" and ") || "always");
  if (!ways.length) return ["never"];
  return ways.length > 3 ? [...ways.slice(0, 2), `or ${ways.length - 2} ways more`] : ways.map((text, k) => (k ? "or " : "") + text);
}

function incomingCounts(record) {
  const counts = record.regions.map(() => 0);
  counts[record.entry] = 1;
  for (const number of reached(record)) {
    const region = record.regions[number];
    [...region.targets, ...region.exits].forEach(target => counts[target]++);
  }
  return counts;
}

// One branch: when it is taken, where it goes, and how many of the edges into its target it gathers.
function branchPart(form, defer) {
  const returns = defer.target === "return";
  const to = returns ? "return" : form.names.region(defer.target);
  const rows = [
    ...conditionRows(form, defer.condition).map(text => ({ text: short(text, 40), class: "faint" })),
    { text: "→ " + short(call(to, valuesIn(form, defer.inputs, defer.region)), 40), class: "title" },
    ...returns ? [] : [{ text: `${defer.count} of ${incomingCounts(form.record)[defer.target]} edges`, class: "faint" }],
  ];
  return { min: roomFor(rows), tall: rows.length * ROW + 12, draw: (x, y, w, h) =>
    [boxed(form, defer, "nest-defer-" + defer.number, returns ? undefined : defer.target, [x, y, w, h], drawRows(rows, x, y + 17, w))] };
}

// Arrows from the middle to each branch.
function fork(x, y, w, h, widths) {
  let left = x;
  const arms = widths.map(wide => {
    left += wide;
    return element("path", { class: "fork", d: `M${x + w / 2} ${y} L${left - wide / 2} ${y + h}`, "marker-end": "url(#arrow)" });
  });
  return element("g", { class: "note" }, box(x, y, w, h), ...arms);
}

function branchesPart(form, region) {
  const set = form.sheet.deferred.filter(defer => defer.region === region.id);
  if (!set.length) return note(false, "unreachable");
  const side = columns(set.map(defer => branchPart(form, defer)));
  const top = set.length > 1 ? 24 : 0;
  return { min: side.min, tall: top + side.tall, draw: (x, y, w, h) =>
    [...top ? [fork(x, y, w, top, side.widths(w))] : [], ...side.draw(x, y + top, w, h - top)] };
}
