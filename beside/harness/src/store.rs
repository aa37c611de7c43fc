//! Reading a store: blocks, words, record, references. Refusals 1 to 8 of document 01.

/// A refusal's number and its word.
pub type Refusal = (u16, usize);

/// A value's three words.
#[derive(Copy, Clone)]
pub struct Value {
    pub kind: u16,
    pub region: usize,
    pub index: usize,
}

pub struct Inst {
    pub opcode: u16,
    pub ty: u16,
    pub cost: u16,
    pub reads: Vec<Value>,
}

pub struct Region {
    pub inputs: Vec<u16>,
    pub blocks: Vec<Vec<Inst>>,
    pub limit: u16,
    pub terminator: u16,
    pub exit_opcode: u16,
    pub values: Vec<Value>,
    pub targets: Vec<usize>,
    /// Each distinct target with the values it is given, by first standing.
    pub target_inputs: Vec<(usize, Vec<Value>)>,
    pub exits: Vec<usize>,
}

pub struct Record {
    pub entry: usize,
    pub test_cost: u16,
    pub constants: Vec<u16>,
    pub regions: Vec<Region>,
}

pub const RETURN: u16 = 1;
pub const BOOL_BRANCH: u16 = 4;

pub fn read(store: &[u8]) -> Result<Record, Refusal> {
    let words = payload(store)?;
    let mut reader = Reader { words: &words, at: 1, region: 0 };
    let record = reader.record()?;
    if reader.at != words.len() {
        return Err((4, 0));
    }
    references(&record)?;
    Ok(record)
}

/// The W words of a store.
fn payload(store: &[u8]) -> Result<Vec<u16>, Refusal> {
    if store.is_empty() || store.len() > 8192 || store.len() % 512 != 0 {
        return Err((1, 0));
    }
    let word = |pair: &[u8]| u16::from_le_bytes([pair[0], pair[1]]);
    let mut words = vec![];
    for (b, block) in store.chunks(512).enumerate() {
        if usize::from(word(block)) != b {
            return Err((2, b));
        }
        let sum: u32 =
            block[..508].iter().zip(1..).map(|(&byte, place)| u32::from(byte) * place).sum();
        if block[508..] != sum.to_le_bytes() {
            return Err((3, b));
        }
        words.extend(block[2..508].chunks(2).map(word));
    }
    let used = usize::from(words[0]);
    if used == 0 || used.div_ceil(253) * 253 != words.len() || words[used..].iter().any(|&w| w != 0)
    {
        return Err((4, 0));
    }
    words.truncate(used);
    Ok(words)
}

/// Reads word by word; the first word that cannot be is the refusal.
struct Reader<'a> {
    words: &'a [u16],
    at: usize,
    region: usize,
}

impl Reader<'_> {
    fn word(&mut self) -> Result<u16, Refusal> {
        let word = *self.words.get(self.at).ok_or((4, 0))?;
        self.at += 1;
        Ok(word)
    }

    fn index(&mut self) -> Result<usize, Refusal> {
        Ok(self.word()?.into())
    }

    fn within(&mut self, least: u16, most: u16) -> Result<u16, Refusal> {
        let word = self.word()?;
        if word < least || word > most { Err((5, self.region)) } else { Ok(word) }
    }

    /// A count within its limits, then that many of what `one` reads.
    fn list<T>(
        &mut self,
        least: u16,
        most: u16,
        mut one: impl FnMut(&mut Self) -> Result<T, Refusal>,
    ) -> Result<Vec<T>, Refusal> {
        let count = self.within(least, most)?;
        (0..count).map(|_| one(self)).collect()
    }

    fn ty(&mut self) -> Result<u16, Refusal> {
        self.within(1, 255)
    }

    fn value(&mut self) -> Result<Value, Refusal> {
        let kind = self.within(0, 5)?;
        if kind == 3 {
            return Err((5, self.region));
        }
        let region = self.index()?;
        let index = if kind == 5 { self.ty()?.into() } else { self.index()? };
        Ok(Value { kind, region, index })
    }

    fn inst(&mut self) -> Result<Inst, Refusal> {
        Ok(Inst {
            opcode: self.word()?,
            ty: self.within(0, 255)?,
            cost: self.word()?,
            reads: self.list(0, 3, Self::value)?,
        })
    }

    fn record(&mut self) -> Result<Record, Refusal> {
        let n = self.within(1, 32)?;
        let entry = self.index()?;
        let test_cost = self.word()?;
        let constants = self.list(0, 64, Self::ty)?;
        let mut regions = vec![];
        for r in 0..n {
            self.region = r.into();
            regions.push(self.one_region()?);
        }
        Ok(Record { entry, test_cost, constants, regions })
    }

    fn one_region(&mut self) -> Result<Region, Refusal> {
        let inputs = self.list(0, 4, Self::ty)?;
        let blocks = self.list(0, 8, |this| this.list(1, 8, Self::inst))?;
        let limit = self.within(1, 65_535)?;
        let terminator = self.within(0, 5)?;
        let exit_opcode = if terminator == 2 { self.word()? } else { 0 };
        let (least_values, most_values, least_targets, most_targets) = match terminator {
            0 => (0, 0, 0, 0),
            1 | 2 => (0, 4, 0, 0),
            3 => (0, 0, 1, 1),
            4 => (1, 1, 2, 2),
            _ => (1, 1, 1, 8),
        };
        let values = self.list(least_values, most_values, Self::value)?;
        let targets = self.list(least_targets, most_targets, Self::index)?;
        let mut target_inputs: Vec<(usize, Vec<Value>)> = vec![];
        for &target in &targets {
            if target_inputs.iter().all(|&(earlier, _)| earlier != target) {
                target_inputs.push((target, self.list(0, 4, Self::value)?));
            }
        }
        let exits = self.list(0, 32, Self::index)?;
        Ok(Region {
            inputs,
            blocks,
            limit,
            terminator,
            exit_opcode,
            values,
            targets,
            target_inputs,
            exits,
        })
    }
}

/// Refusals 6, 7 and 8, in record order.
fn references(record: &Record) -> Result<(), Refusal> {
    let n = record.regions.len();
    if record.entry >= n {
        return Err((6, 0));
    }
    let mut returned: Option<Vec<u16>> = None;
    for (r, region) in record.regions.iter().enumerate() {
        // Types of the outputs so far; 0 is an instruction without one.
        let mut outputs = vec![];
        // The type of a value that may be used here.
        let type_of = |v: &Value, outputs: &[u16]| {
            let named = match v.kind {
                0 if v.region == 0 => record.constants.get(v.index).copied(),
                1 if v.region == r => region.inputs.get(v.index).copied(),
                2 if v.region == r => outputs.get(v.index).copied().filter(|&ty| ty != 0),
                4 if v.region == 0 && v.index <= 1 => Some(1),
                5 if v.region == 0 => Some(v.index as u16),
                _ => None,
            };
            named.ok_or((6, r))
        };

        for inst in region.blocks.iter().flatten() {
            for v in &inst.reads {
                type_of(v, &outputs)?;
            }
            outputs.push(inst.ty);
        }

        let earlier = returned.as_ref().filter(|_| region.terminator == RETURN);
        if earlier.is_some_and(|types| types.len() != region.values.len()) {
            return Err((7, r));
        }
        let mut types = vec![];
        for (i, v) in region.values.iter().enumerate() {
            let ty = type_of(v, &outputs)?;
            if earlier.is_some_and(|types| types[i] != ty)
                || region.terminator == BOOL_BRANCH && ty != 1
            {
                return Err((7, r));
            }
            types.push(ty);
        }
        if region.terminator == RETURN {
            returned = Some(types);
        }

        if region.targets.iter().any(|&target| target >= n) {
            return Err((6, r));
        }
        for (target, values) in &region.target_inputs {
            let wanted = &record.regions[*target].inputs;
            if values.len() != wanted.len() {
                return Err((7, r));
            }
            for (v, &ty) in values.iter().zip(wanted) {
                if type_of(v, &outputs)? != ty {
                    return Err((7, r));
                }
            }
        }

        for (i, exit) in region.exits.iter().enumerate() {
            if *exit >= n {
                return Err((6, r));
            }
            if region.exits[..i].contains(exit) {
                return Err((8, r));
            }
        }
    }
    Ok(())
}
