// The dearest path through a nested form, and each box's share of the figure (document 01, "four outcomes").

// Sets `cost` of each part, and `dearest`, the place of a select's dearest case (the first of equals).
function price(region, record) {
  region.cost = region.children.reduce((sum, node) => sum + priceNode(node, record), 0);
  return region.cost;
}

function priceNode(node, record) {
  node.cost = 0;
  if (node.word === "block") {
    for (const item of node.items) {
      item.cost = record.regions[item.region].blocks.flat()[item.index].cost;
      node.cost += item.cost;
    }
  } else if (node.word === "select") {
    const costs = node.bodies.map(body => price(body, record));
    node.dearest = costs.indexOf(Math.max(...costs));
    node.cost = record.test + costs[node.dearest];
  } else if (node.word === "loop") {
    node.limit = record.regions[node.body].limit;
    node.cost = node.limit * (price(node.region, record) + record.test);
  }
  return node.cost;
}

// Sets `times` and `share` of each part on the dearest path: how often it runs, and what it adds by itself.
// `visits` becomes the regions of the record along the path, in order; a loop's header stands again after its body, with the
// place in `visits` where the loop begins.
function share(region, times, record, visits) {
  region.times = times;
  if (region.id < record.regions.length) visits.push({ region: region.id });
  for (const node of region.children) shareNode(node, times, record, visits);
}

function shareNode(node, times, record, visits) {
  node.times = times;
  if (node.word === "block") {
    node.share = times * node.cost;
    visits.push({ region: node.items[0].region });
  } else if (node.word === "select") {
    node.share = times * record.test;
    share(node.bodies[node.dearest], times, record, visits);
  } else if (node.word === "loop") {
    node.share = times * node.limit * record.test;
    const since = visits.length;
    share(node.region, times * node.limit, record, visits);
    visits.push({ region: node.body, since, back: node.limit > 1 });
  } else {
    node.share = 0;
  }
}

function total(region) {
  return region.children.reduce((sum, node) => sum + (node.share || 0)
    + (node.bodies || (node.region ? [node.region] : [])).reduce((all, body) => all + (body.times ? total(body) : 0), 0), 0);
}

// Prices a sheet's form. The figure is the program's: where the shares do not add up to it, none is shown.
function priceSheet(sheet, record) {
  const path = { regions: new Map(), edges: new Set(), right: false };
  sheet.roots.forEach(root => price(root, record));
  if (sheet.figure === null) return path;
  const visits = [];
  share(sheet.roots[0], 1, record, visits);
  path.right = total(sheet.roots[0]) === sheet.figure;
  if (path.right) markGraph(path, sheet.roots[0], visits, record);
  if (path.right && sheet.outcome === "whole") markEnd(path, visits, record);
  return path;
}

// The path in the graph: the share of each region's own blocks, and the edges from one visited region to the next.
function markGraph(path, root, visits, record) {
  const add = region => region.children.forEach(node => {
    if (node.word === "block" && node.times) {
      const owner = node.items[0].region;
      path.regions.set(owner, (path.regions.get(owner) || 0) + node.share);
    }
    (node.bodies || (node.region ? [node.region] : [])).filter(body => body.times).forEach(add);
  });
  add(root);
  visits.forEach(({ region }) => path.regions.has(region) || path.regions.set(region, 0));
  visits.forEach((visit, k) => k && markStep(path, visits, k, record));
}

// One step of the path: from the region before, or behind a loop from the last of its regions that has a way.
function markStep(path, visits, k, record) {
  const { region, since, back } = visits[k], before = visits[k - 1];
  if (since !== undefined && !back) return;             // the end of a loop that takes one turn is no step
  const from = since !== undefined ? since : before.since !== undefined ? before.since : k - 1;
  const origins = visits.slice(from, k).filter(visit => visit.since === undefined).map(visit => visit.region).reverse();
  if (since === undefined && origins.length === 1 && origins[0] === region) return;
  origins.find(origin => way(record, origin, region, path));
}

// A region that only returns leaves nothing in the nest: it is the path's end if the last region that leads to one is on it.
function markEnd(path, visits, record) {
  const returns = number => record.regions[number].kind === "return";
  if (visits.some(({ region }) => returns(region))) return;
  const ends = number => record.regions[number].targets.filter(target => returns(target) && !record.regions[target].blocks.length);
  const last = [...visits].reverse().find(({ region }) => ends(region).length);
  if (last) way(record, last.region, ends(last.region)[0], path);
}

// Marks the shortest way between two regions that goes through regions without blocks alone; answers whether there is one.
function way(record, from, to, path) {
  const queue = [[from]], seen = new Set();
  while (queue.length) {
    const walked = queue.shift();
    for (const target of record.regions[walked[walked.length - 1]].targets) {
      if (target === to) {
        const all = [...walked, target];
        all.forEach((region, k) => {
          if (k) path.edges.add(all[k - 1] + ">" + region);
          if (!path.regions.has(region)) path.regions.set(region, 0);
        });
        return true;
      }
      if (!seen.has(target) && !record.regions[target].blocks.length) queue.push([...walked, target]);
      seen.add(target);
    }
  }
  return false;
}
