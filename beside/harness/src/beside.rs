//! A record as a function of the Rust, the Structurizer's run on it, and the sheet.
//!
//! This file stands as a child module of cfg.rs: there it sees the private fields.

use super::*;
use crate::spv::spec::{Opcode, Spec};
use crate::{DataInstDef, DataInstKind, EntityList, RegionInputDecl};
use std::cell::Cell;
use std::hash::{Hash, Hasher};

pub mod store;
use store::Record;

thread_local! { static ATTEMPTS: Cell<u64> = const { Cell::new(0) }; }

/// The counter in try_claim_edge_bundle.
pub(super) fn attempt() {
    ATTEMPTS.set(ATTEMPTS.get() + 1);
}

#[derive(Copy, Clone, Default)]
pub struct Options {
    /// The exit lists and counts of Structurizer::new, not the record's.
    pub lists_of_new: bool,
    /// structurize_func whole, not the claim of the entry.
    pub func: bool,
    /// Print the exit lists that LoopFinder finds, and nothing else.
    pub lists: bool,
}

/// What the Rust answers to a store: the lines of a sheet, or of a refusal.
pub fn answer(store: &[u8], options: Options) -> String {
    let record = match store::read(store) {
        Ok(record) => record,
        Err((number, word)) => return format!("refused {number} {word}\n"),
    };
    let cx = Context::new();
    let mut built = Built::new(&cx, &record);
    if options.lists { built.lists(&cx) } else { built.sheet(&cx, &record, options) }
}

/// Regions, nodes and instructions have numbers in order of definition, from one chunk on,
/// and keep them private; hashing shows them.
fn number(entity: impl Hash) -> usize {
    struct Shown(u32);
    impl Hasher for Shown {
        fn write(&mut self, _: &[u8]) {
            unreachable!()
        }
        fn write_u32(&mut self, word: u32) {
            self.0 = word;
        }
        fn finish(&self) -> u64 {
            self.0.into()
        }
    }
    let mut shown = Shown(0);
    entity.hash(&mut shown);
    shown.0 as usize - 0x1000
}

fn edge_count(n: usize) -> IncomingEdgeCount {
    (0..n).fold(IncomingEdgeCount::default(), |sum, _| sum + IncomingEdgeCount::ONE)
}

fn count_number(count: IncomingEdgeCount) -> usize {
    (0..).find(|&n| edge_count(n) == count).unwrap()
}

fn numbered(opcode: Opcode, n: usize) -> spv::Inst {
    let kind = Spec::get().well_known.LiteralInteger;
    spv::Inst { opcode, imms: [spv::Imm::Short(kind, n as u32)].into_iter().collect() }
}

fn number_of(inst: &spv::Inst) -> usize {
    match inst.imms[..] {
        [spv::Imm::Short(_, n)] => n as usize,
        _ => unreachable!(),
    }
}

/// Type 1 is the Rust's boolean, any other an integer type with our number.
fn type_of(cx: &Context, ty: usize) -> Type {
    let wk = &Spec::get().well_known;
    cx.intern(TypeKind::SpvInst {
        spv_inst: if ty == 1 { wk.OpTypeBool.into() } else { numbered(wk.OpTypeInt, ty) },
        type_and_const_inputs: [].into_iter().collect(),
    })
}

fn type_number(cx: &Context, ty: Type) -> usize {
    match &cx[ty].kind {
        TypeKind::SpvInst { spv_inst, .. } if spv_inst.imms.is_empty() => 1,
        TypeKind::SpvInst { spv_inst, .. } => number_of(spv_inst),
        _ => unreachable!(),
    }
}

fn constant(cx: &Context, ty: usize, inst: spv::Inst) -> Value {
    Value::Const(cx.intern(ConstDef {
        attrs: AttrSet::default(),
        ty: type_of(cx, ty),
        kind: ConstKind::SpvInst {
            spv_inst_and_const_inputs: Rc::new((inst, [].into_iter().collect())),
        },
    }))
}

/// A record as the Rust has it.
struct Built {
    func: FuncDefBody,
    regions: Vec<Region>,
    /// Region and index of each instruction, by its number.
    insts: Vec<(usize, usize)>,
    /// The record's exit lists and incoming counts, as document 01 defines them.
    exits: FxIndexMap<Region, FxIndexSet<Region>>,
    counts: EntityOrientedDenseMap<Region, IncomingEdgeCount>,
}

impl Built {
    fn new(cx: &Context, record: &Record) -> Self {
        let wk = &Spec::get().well_known;
        let attrs = AttrSet::default();
        let mut defs = crate::EntityDefs::<Region>::new();
        let mut nodes = crate::EntityDefs::<Node>::new();
        let mut data_insts = crate::EntityDefs::new();
        let mut cfg = ControlFlowGraph::default();
        let mut insts = vec![];

        let regions: Vec<Region> = (record.regions.iter())
            .map(|region| {
                let inputs = region.inputs.iter();
                let inputs =
                    inputs.map(|&ty| RegionInputDecl { attrs, ty: type_of(cx, ty.into()) });
                defs.define(cx, RegionDef { inputs: inputs.collect(), ..Default::default() })
            })
            .collect();

        for (r, region) in record.regions.iter().enumerate() {
            let mut own = vec![];
            let value = |v: &store::Value, own: &[_]| match v.kind {
                0 => {
                    let ty = record.constants[v.index].into();
                    constant(cx, ty, numbered(wk.OpConstant, v.index))
                }
                1 => Value::RegionInput { region: regions[v.region], input_idx: v.index as u32 },
                2 => Value::DataInstOutput(own[v.index]),
                4 => constant(cx, 1, [wk.OpConstantFalse, wk.OpConstantTrue][v.index].into()),
                5 => constant(cx, v.index, wk.OpUndef.into()),
                _ => unreachable!(),
            };

            for block in &region.blocks {
                let mut list = EntityList::empty();
                for inst in block {
                    let def = DataInstDef {
                        attrs,
                        kind: DataInstKind::SpvInst(Opcode(inst.opcode).into()),
                        inputs: inst.reads.iter().map(|v| value(v, &own)).collect(),
                        output_type: (inst.ty != 0).then(|| type_of(cx, inst.ty.into())),
                    };
                    let defined = data_insts.define(cx, def.into());
                    list.insert_last(defined, &mut data_insts);
                    insts.push((r, own.len()));
                    own.push(defined);
                }
                let kind = NodeKind::Block { insts: list };
                let outputs = [].into_iter().collect();
                let node = nodes.define(cx, NodeDef { kind, outputs }.into());
                defs[regions[r]].children.insert_last(node, &mut nodes);
            }

            let kind = match region.terminator {
                0 => ControlInstKind::Unreachable,
                1 => ControlInstKind::Return,
                2 => ControlInstKind::ExitInvocation(ExitInvocationKind::SpvInst(
                    Opcode(region.exit_opcode).into(),
                )),
                3 => ControlInstKind::Branch,
                4 => ControlInstKind::SelectBranch(SelectionKind::BoolCond),
                5 => ControlInstKind::SelectBranch(SelectionKind::SpvInst(wk.OpSwitch.into())),
                _ => unreachable!(),
            };
            let targets = region.targets.iter().map(|&target| regions[target]);
            let target_inputs = region.target_inputs.iter().map(|(target, values)| {
                (regions[*target], values.iter().map(|v| value(v, &own)).collect())
            });
            let control_inst = ControlInst {
                attrs,
                kind,
                inputs: region.values.iter().map(|v| value(v, &own)).collect(),
                targets: targets.collect(),
                target_inputs: target_inputs.collect(),
            };
            cfg.control_inst_on_exit_from.insert(regions[r], control_inst);
        }

        // Regions in reach count their targets and their exit lists, the entry one more.
        let mut counted = vec![0; regions.len()];
        counted[record.entry] = 1;
        let mut exits = FxIndexMap::default();
        let mut reached = vec![record.entry];
        let mut next = 0;
        while let Some(&r) = reached.get(next) {
            next += 1;
            let region = &record.regions[r];
            for &target in &region.targets {
                counted[target] += 1;
                if !reached.contains(&target) {
                    reached.push(target);
                }
            }
            for &exit in &region.exits {
                counted[exit] += 1;
            }
            exits.insert(regions[r], region.exits.iter().map(|&exit| regions[exit]).collect());
        }
        let mut counts = EntityOrientedDenseMap::new();
        for (&region, count) in regions.iter().zip(counted) {
            counts.insert(region, edge_count(count));
        }

        let func = FuncDefBody {
            regions: defs,
            nodes,
            data_insts,
            body: regions[record.entry],
            unstructured_cfg: Some(cfg),
        };
        Built { func, regions, insts, exits, counts }
    }

    /// A line for each loop header that LoopFinder finds, with its exit list.
    fn lists(&mut self, cx: &Context) -> String {
        let found = Structurizer::new(cx, &mut self.func).loop_header_to_exit_targets;
        let line = |(header, exits): (Region, FxIndexSet<Region>)| {
            format!("exits {} {}\n", number(header), list(exits.into_iter().map(number)))
        };
        found.into_iter().sorted_by_key(|&(header, _)| number(header)).map(line).collect()
    }

    /// The Rust's state before the entry's claim, with the record's exit lists and counts.
    fn structurizer<'a>(&'a mut self, cx: &'a Context) -> Structurizer<'a> {
        // Without a graph the lists of Structurizer::new are empty; ours take their place.
        let cfg = self.func.unstructured_cfg.take();
        let mut structurizer = Structurizer::new(cx, &mut self.func);
        structurizer.func_def_body.unstructured_cfg = cfg;
        structurizer.loop_header_to_exit_targets = mem::take(&mut self.exits);
        structurizer.incoming_edge_counts_including_loop_exits = mem::take(&mut self.counts);
        structurizer
    }

    fn sheet(&mut self, cx: &Context, record: &Record, options: Options) -> String {
        ATTEMPTS.set(0);
        let entry = self.func.body;
        let structurizer = if options.lists_of_new {
            Structurizer::new(cx, &mut self.func)
        } else {
            self.structurizer(cx)
        };

        let (outcome, sets) = if options.func {
            structurizer.structurize_func();
            (func_outcome(&self.func), vec![])
        } else {
            claimed_and_rewritten(structurizer)
        };
        let attempts = ATTEMPTS.get();

        let mut sheet = Sheet { cx, record, built: self, lines: String::new() };
        let figure = match outcome {
            "whole" | "closed" => match sheet.region(entry) {
                figure if figure > u32::MAX.into() => return "refused 11 0\n".into(),
                figure => figure.to_string(),
            },
            _ => {
                // The entry comes first, whatever its number.
                for &(region, _) in sets.iter().sorted_by_key(|&&(r, _)| (r != entry, number(r))) {
                    sheet.region(region);
                }
                for (region, set) in sets.iter().sorted_by_key(|&&(r, _)| number(r)) {
                    sheet.defers(*region, set);
                }
                "-".into()
            }
        };
        format!("{outcome} figure {figure} attempts {attempts}\n{}", sheet.lines)
    }
}

/// The outcome that structurize_func leaves behind.
fn func_outcome(func: &FuncDefBody) -> &'static str {
    match &func.unstructured_cfg {
        None => "whole",
        Some(_) if ATTEMPTS.get() == 0 => "untouched",
        Some(cfg) => match cfg.control_inst_on_exit_from[func.body].kind {
            ControlInstKind::Unreachable => "closed",
            _ => "leftover",
        },
    }
}

/// Outcome and, of a leftover, the sets of the entry and of all unclaimed Ready regions.
type Claimed = (&'static str, Vec<(Region, DeferredEdgeBundleSet)>);

/// The entry's claim, as structurize_func makes it.
fn claim_entry(s: &mut Structurizer<'_>) -> Claimed {
    let target = s.func_def_body.body;
    if s.incoming_edge_counts_including_loop_exits[target] != IncomingEdgeCount::ONE {
        return ("untouched", vec![]);
    }
    let claimed = s
        .try_claim_edge_bundle(IncomingEdgeBundle {
            target,
            accumulated_count: IncomingEdgeCount::ONE,
            target_inputs: [].into_iter().collect(),
        })
        .ok()
        .unwrap();
    assert!(claimed.structured_body == target && claimed.structured_body_inputs.is_empty());

    let mut sets = vec![];
    let outcome = match claimed.deferred_edges {
        DeferredEdgeBundleSet::Unreachable => "closed",
        DeferredEdgeBundleSet::Always { target: DeferredTarget::Return, edge_bundle } => {
            s.func_def_body.at_mut_body().def().outputs = edge_bundle.target_inputs;
            "whole"
        }
        set => {
            sets.push((target, set));
            for (region, state) in mem::take(&mut s.structurize_region_state) {
                if let StructurizeRegionState::Ready { region_deferred_edges, .. } = state {
                    sets.push((region, region_deferred_edges));
                }
            }
            "leftover"
        }
    };
    (outcome, sets)
}

/// What structurize_func does up to the rebuilding of a leftover: the entry's claim, then the
/// rewriting, once.
fn claimed_and_rewritten(mut s: Structurizer<'_>) -> Claimed {
    let (outcome, mut sets) = claim_entry(&mut s);
    if outcome == "untouched" {
        return (outcome, sets);
    }
    let target = s.func_def_body.body;
    let mut rewrite = RegionInputRewrites::rewrite_all(&s.region_input_rewrites);
    s.func_def_body.at_mut_body().inner_in_place_transform_with(&mut rewrite);
    for (region, set) in &mut sets {
        if *region != target {
            s.func_def_body.at_mut(*region).inner_in_place_transform_with(&mut rewrite);
        }
        for (_, edge_bundle) in set.iter_targets_with_edge_bundle_mut() {
            for v in &mut edge_bundle.target_inputs {
                rewrite.transform_value_use(v).apply_to(v);
            }
        }
    }
    (outcome, sets)
}

/// For bench/nesting: a record that is read and built, and its nesting alone.
pub struct Timed {
    cx: Context,
    built: Built,
}

impl Timed {
    pub fn new(store: &[u8]) -> Option<Self> {
        let record = store::read(store).ok()?;
        let cx = Context::new();
        let built = Built::new(&cx, &record);
        Some(Timed { cx, built })
    }

    pub fn regions(&self) -> usize {
        self.built.regions.len()
    }

    /// The entry's claim, from the graph with its exit lists and counts; no value is rewritten.
    pub fn nest(&mut self) -> &'static str {
        claim_entry(&mut self.built.structurizer(&self.cx)).0
    }
}

/// Items joined by commas, `-` if there are none.
fn list<T: std::fmt::Display>(items: impl IntoIterator<Item = T>) -> String {
    let joined = items.into_iter().join(",");
    if joined.is_empty() { "-".into() } else { joined }
}

struct Sheet<'a> {
    cx: &'a Context,
    record: &'a Record,
    built: &'a Built,
    lines: String,
}

impl Sheet<'_> {
    fn line(&mut self, line: String) {
        self.lines += &line;
        self.lines += "\n";
    }

    /// A region's line and all below it; gives what it costs.
    fn region(&mut self, region: Region) -> u64 {
        let def = self.built.func.at(region).def();
        let kids: Vec<Node> =
            self.built.func.at(region).at_children().into_iter().map(|at| at.position).collect();
        self.line(format!(
            "region {} in {} kids {} out {}",
            number(region),
            self.types(def.inputs.iter().map(|input| input.ty)),
            list(kids.iter().map(number)),
            self.values(&def.outputs),
        ));
        kids.into_iter().map(|node| self.node(node)).fold(0, u64::saturating_add)
    }

    fn node(&mut self, node: Node) -> u64 {
        let def = self.built.func.at(node).def();
        let node = number(node);
        let test_cost = u64::from(self.record.test_cost);
        match &def.kind {
            &NodeKind::Block { insts } => {
                let mut cost = 0;
                let mut items = vec![];
                for at in self.built.func.at(insts) {
                    let (region, index) = self.built.insts[number(at.position)];
                    let inst = at.def();
                    let DataInstKind::SpvInst(spv_inst) = &inst.kind else { unreachable!() };
                    items.push(format!(
                        "{region}.{index}/{}/{}/{}",
                        spv_inst.opcode.0,
                        inst.output_type.map_or(0, |ty| type_number(self.cx, ty)),
                        self.values(&inst.inputs),
                    ));
                    let mut given = self.record.regions[region].blocks.iter().flatten();
                    cost += u64::from(given.nth(index).unwrap().cost);
                }
                self.line(format!("block {node} {}", list(items)));
                cost
            }
            NodeKind::Select { kind, scrutinee, cases } => {
                self.line(format!(
                    "select {node} {} {} cases {} out {}",
                    if let SelectionKind::BoolCond = kind { "bool" } else { "num" },
                    self.value(*scrutinee),
                    list(cases.iter().map(number)),
                    self.types(def.outputs.iter().map(|output| output.ty)),
                ));
                let dearest = cases.iter().map(|&case| self.region(case)).max();
                dearest.unwrap_or(0).saturating_add(test_cost)
            }
            NodeKind::Loop { initial_inputs, body, repeat_condition } => {
                self.line(format!(
                    "loop {node} in {} body {} repeat {}",
                    self.values(initial_inputs),
                    number(body),
                    self.value(*repeat_condition),
                ));
                let limit = self.record.regions[number(body)].limit;
                self.region(*body).saturating_add(test_cost).saturating_mul(limit.into())
            }
            NodeKind::ExitInvocation { kind: ExitInvocationKind::SpvInst(inst), inputs } => {
                self.line(format!("exit {node} {} in {}", inst.opcode.0, self.values(inputs)));
                0
            }
        }
    }

    fn defers(&mut self, region: Region, set: &DeferredEdgeBundleSet) {
        for (target, edge_bundle) in set.iter_targets_with_edge_bundle() {
            let condition = match set {
                DeferredEdgeBundleSet::Choice { target_to_deferred } => {
                    cond(&target_to_deferred[&target].condition)
                }
                _ => "t".into(),
            };
            self.line(format!(
                "defer {} to {} count {} in {} if {condition}",
                number(region),
                match target {
                    DeferredTarget::Region(target) => number(target).to_string(),
                    DeferredTarget::Return => "return".into(),
                },
                count_number(edge_bundle.accumulated_count),
                self.values(&edge_bundle.target_inputs),
            ));
        }
    }

    fn types(&self, types: impl Iterator<Item = Type>) -> String {
        list(types.map(|ty| type_number(self.cx, ty)))
    }

    fn values(&self, values: &[Value]) -> String {
        list(values.iter().map(|&v| self.value(v)))
    }

    fn value(&self, v: Value) -> String {
        let wk = &Spec::get().well_known;
        match v {
            Value::Const(c) => {
                let ConstDef { ty, kind, .. } = &self.cx[c];
                let ConstKind::SpvInst { spv_inst_and_const_inputs } = kind else { unreachable!() };
                match &spv_inst_and_const_inputs.0 {
                    inst if inst.opcode == wk.OpConstantFalse => "false".into(),
                    inst if inst.opcode == wk.OpConstantTrue => "true".into(),
                    inst if inst.opcode == wk.OpUndef => {
                        format!("undef{}", type_number(self.cx, *ty))
                    }
                    inst => format!("c{}", number_of(inst)),
                }
            }
            Value::RegionInput { region, input_idx } => format!("i{}.{input_idx}", number(region)),
            Value::NodeOutput { node, output_idx } => format!("n{}.{output_idx}", number(node)),
            Value::DataInstOutput(inst) => {
                let (region, index) = self.built.insts[number(inst)];
                format!("d{region}.{index}")
            }
        }
    }
}

fn cond(condition: &LazyCond) -> String {
    match condition {
        LazyCond::Undef => "u".into(),
        LazyCond::False => "f".into(),
        LazyCond::True => "t".into(),
        LazyCond::Merge(merge) => {
            let LazyCondMerge::Select { node, per_case_conds } = &**merge;
            format!("m{}[{}]", number(node), per_case_conds.iter().map(cond).join(","))
        }
    }
}
