// What `exits auto` finds, and which regions head a loop and so must state a turn limit.

// LoopFinder of cfg.rs: Tarjan's components, then again within each loop without its header.
class LoopFinder {
  constructor(record) {
    this.record = record;
    [this.found, this.stack, this.pending, this.complete] = [new Map(), [], new Map(), new Map()];
  }

  // The earliest place on the stack that a region leads back to, or null; and whether it may return.
  earliest(node) {
    if (this.pending.has(node)) return [this.pending.get(node), false];
    if (this.complete.has(node)) return [null, this.complete.get(node)];
    const at = this.stack.length, region = this.record.regions[node], roots = [];
    this.pending.set(node, at);
    this.stack.push(node);
    let returns = region.kind === ENDS.return;
    for (const target of region.targets) {
      const [root, too] = this.earliest(target);
      returns = returns || too;
      if (root !== null) roots.push(root);
    }
    const first = roots.length ? Math.min(...roots) : null;
    if (first === at) {
      this.completeLoop(node, at, returns);
      return [null, returns];
    }
    if (first === null) {
      this.stack.pop();
      this.finish(node, returns);
    }
    return [first, returns];
  }

  finish(node, returns) {
    this.pending.delete(node);
    this.complete.set(node, returns);
  }

  // Note the loop's exits, those that meet again if any does; then look for loops within its body.
  completeLoop(header, at, returns) {
    const leaving = this.stack.slice(at).flatMap(node => this.record.regions[node].targets);
    this.found.set(header, [...new Set(leaving.filter(target => this.complete.get(target) === returns))]);
    this.finish(header, returns);
    const body = this.stack.slice(at + 1);
    body.forEach(node => this.pending.delete(node));
    body.forEach(node => this.earliest(node));
    this.stack.length = at;
  }
}

function loopExits(record) {
  const finder = new LoopFinder(record);
  finder.earliest(record.entry);
  return finder.found;
}

// Each region that heads a loop, with the region that leads back to it, or null where only its exit list says so.
function loopHeaders(record) {
  const found = new Map(), onTheWay = new Set(), done = new Set(), count = record.regions.length;
  const walk = number => {
    onTheWay.add(number);
    for (const target of record.regions[number].targets) {
      if (!onTheWay.has(target)) target < count && !done.has(target) && walk(target);
      else if (!found.has(target)) found.set(target, number);
    }
    onTheWay.delete(number);
    done.add(number);
  };
  [record.entry, ...record.regions.keys()].forEach(start => start < count && !done.has(start) && walk(start));
  record.regions.forEach((region, number) => region.exits.length && !found.has(number) && found.set(number, null));
  return found;
}
