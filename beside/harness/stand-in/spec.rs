//! Stand-in for spirt's spv/spec.rs, which reads Khronos' grammar: an opcode is its number,
//! and the few well-known names have theirs from the SPIR-V specification.

#[derive(Copy, Clone, PartialEq, Eq, PartialOrd, Ord, Hash)]
pub struct Opcode(pub u16);

#[derive(Copy, Clone, Debug, PartialEq, Eq, PartialOrd, Ord, Hash)]
pub struct OperandKind(pub u8);

/// Named by context.rs; none is ever made.
pub struct ExtInstSetDesc;

pub struct Spec {
    pub well_known: WellKnown,
}

#[allow(non_snake_case)]
pub struct WellKnown {
    pub OpUndef: Opcode,
    pub OpTypeBool: Opcode,
    pub OpTypeInt: Opcode,
    pub OpConstantTrue: Opcode,
    pub OpConstantFalse: Opcode,
    pub OpConstant: Opcode,
    pub OpSwitch: Opcode,
    pub LiteralInteger: OperandKind,
    pub LiteralString: OperandKind,
}

impl Spec {
    pub fn get() -> &'static Spec {
        &Spec {
            well_known: WellKnown {
                OpUndef: Opcode(1),
                OpTypeBool: Opcode(20),
                OpTypeInt: Opcode(21),
                OpConstantTrue: Opcode(41),
                OpConstantFalse: Opcode(42),
                OpConstant: Opcode(43),
                OpSwitch: Opcode(251),
                LiteralInteger: OperandKind(0),
                LiteralString: OperandKind(1),
            },
        }
    }
}
