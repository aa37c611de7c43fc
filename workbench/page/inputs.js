// Which input of the record an input of a loop's body is. Nesting leaves out an input that is passed back unchanged, and the others
// get new numbers: `i2.0` of the sheet may be `i2.1` of the record.

const inputOf = text => {
  const match = /^i(\d+)\.(\d+)$/.exec(text);
  return match && { region: Number(match[1]), index: Number(match[2]) };
};

// For each loop's body the record's input of each of its inputs, or undefined where that cannot be told.
function keptInputs(record, sheet) {
  const kept = new Map(), lines = new Map(sheet.lines.filter(line => line.word === "region").map(line => [line.id, line]));
  for (const loop of sheet.lines.filter(line => line.word === "loop")) {
    const ways = candidates(lines.get(loop.body).inputs, record.regions[loop.body].inputs)
      .filter(way => fitsReads(way, loop.body, record, sheet) && fitsFirst(way, loop, record));
    const backs = ways.filter(way => fitsBacks(way, loop.body, record));
    kept.set(loop.body, ways.length === 1 ? ways[0] : backs.length === 1 ? backs[0] : []);
  }
  return kept;
}

// The record's value of a value of the sheet; undefined for an input of a loop that cannot be told.
function recordValue(kept, text) {
  const input = inputOf(text);
  if (!input || !kept.has(input.region)) return text;
  const index = kept.get(input.region)[input.index];
  return index === undefined ? undefined : `i${input.region}.${index}`;
}

// All ways in which a list of types is what stays of another, as places in the other.
function candidates(types, all, from = 0) {
  if (!types.length) return [[]];
  const found = [];
  for (let k = from; k < all.length; k++) {
    if (all[k] === types[0]) candidates(types.slice(1), all, k + 1).forEach(rest => found.push([k, ...rest]));
  }
  return found;
}

// The values that the edges into a region pass, of those that leave regions which the entry reaches.
function edgesInto(record, number) {
  return [...reached(record)].flatMap(from => record.regions[from].targets.filter(to => to === number)
    .map(() => ({ from, values: record.regions[from].passed.get(number) })));
}

// A value of the record followed back through regions that one edge leads into.
function followed(record, text, stop) {
  for (let input = inputOf(text); input && input.region !== stop && input.region !== record.entry; input = inputOf(text)) {
    const edges = edgesInto(record, input.region);
    if (edges.length !== 1) break;
    text = edges[0].values[input.index];
  }
  return text;
}

// What an instruction reads in the sheet is what it reads in the record.
function fitsReads(way, body, record, sheet) {
  return sheet.lines.filter(line => line.word === "block").every(line => line.items.every(item =>
    record.regions[item.region].blocks.flat()[item.index].reads.every((text, k) => {
      const was = inputOf(followed(record, text, body)), now = inputOf(item.reads[k]);
      if (!was || was.region !== body) return true;
      return now && now.region === body ? way[now.index] === was.index : !way.includes(was.index);
    })));
}

// A constant that one edge from outside passes is the first value.
function fitsFirst(way, loop, record) {
  const inside = bodyOf(record, loop.body), edges = edgesInto(record, loop.body).filter(edge => !inside.has(edge.from));
  if (edges.length !== 1) return true;
  return way.every((k, place) => /^[id]/.test(edges[0].values[k]) || edges[0].values[k] === loop.first[place]);
}

// An input that each way back passes unchanged is left out, and no other.
function fitsBacks(way, body, record) {
  const inside = bodyOf(record, body), backs = edgesInto(record, body).filter(edge => inside.has(edge.from));
  const same = k => backs.every(edge => followed(record, edge.values[k], body) === `i${body}.${k}`);
  return record.regions[body].inputs.every((_, k) => way.includes(k) !== same(k));
}

// The regions that a region leads to and that lead back to it.
function bodyOf(record, header) {
  const reachedFrom = start => {
    const found = new Set();
    const walk = number => record.regions[number].targets.forEach(to => found.has(to) || (found.add(to), walk(to)));
    walk(start);
    return found;
  };
  return new Set([...reachedFrom(header)].filter(number => reachedFrom(number).has(header)));
}
