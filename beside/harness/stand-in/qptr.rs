//! Stand-in for spirt's qptr: the names that lib.rs and transform.rs mention. None is ever made.

use crate::{AddrSpace, OrdAssertEq, Type};
use std::collections::BTreeMap;
use std::rc::Rc;

#[derive(Clone, PartialEq, Eq, PartialOrd, Ord, Hash)]
pub enum QPtrAttr {
    ToSpvPtrInput { input_idx: u32, pointee: OrdAssertEq<Type> },
    FromSpvPtrOutput { addr_space: OrdAssertEq<AddrSpace>, pointee: OrdAssertEq<Type> },
    Usage(OrdAssertEq<QPtrUsage>),
}

#[derive(Clone, PartialEq, Eq, Hash)]
pub enum QPtrUsage {
    Handles(shapes::Handle<QPtrMemUsage>),
    Memory(QPtrMemUsage),
}

#[derive(Clone, PartialEq, Eq, Hash)]
pub struct QPtrMemUsage {
    pub max_size: Option<u32>,
    pub kind: QPtrMemUsageKind,
}

#[derive(Clone, PartialEq, Eq, Hash)]
pub enum QPtrMemUsageKind {
    Unused,
    StrictlyTyped(Type),
    DirectAccess(Type),
    OffsetBase(Rc<BTreeMap<u32, QPtrMemUsage>>),
    DynOffsetBase { element: Rc<QPtrMemUsage>, stride: u32 },
}

#[derive(Clone, PartialEq, Eq, Hash)]
pub enum QPtrOp {
    FuncLocalVar(()),
    HandleArrayIndex,
    BufferData,
    BufferDynLen {},
    Offset(i32),
    DynOffset {},
    Load,
    Store,
}

pub mod shapes {
    use super::*;

    #[derive(Clone, PartialEq, Eq, Hash)]
    pub enum Handle<T> {
        Opaque(Type),
        Buffer(AddrSpace, T),
    }

    #[derive(Clone)]
    pub enum GlobalVarShape {
        TypedInterface(Type),
        Handles {},
        UntypedData(()),
    }
}
