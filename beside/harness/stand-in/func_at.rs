//! Stand-in for spirt's func_at.rs: a place in a function, to read or to change.

use crate::{
    Context, DataInst, DataInstDef, EntityList, EntityListIter, FuncDefBody, Node, NodeDef, Region,
    RegionDef, Type, Value,
};

#[derive(Copy, Clone)]
pub struct FuncAt<'a, P: Copy> {
    func: &'a FuncDefBody,
    pub position: P,
}

pub struct FuncAtMut<'a, P: Copy> {
    func: &'a mut FuncDefBody,
    pub position: P,
}

impl FuncDefBody {
    pub fn at<P: Copy>(&self, position: P) -> FuncAt<'_, P> {
        FuncAt { func: self, position }
    }
    pub fn at_mut<P: Copy>(&mut self, position: P) -> FuncAtMut<'_, P> {
        FuncAtMut { func: self, position }
    }
    pub fn at_body(&self) -> FuncAt<'_, Region> {
        self.at(self.body)
    }
    pub fn at_mut_body(&mut self) -> FuncAtMut<'_, Region> {
        self.at_mut(self.body)
    }
}

impl<'a, P: Copy> FuncAt<'a, P> {
    pub fn at<Q: Copy>(self, position: Q) -> FuncAt<'a, Q> {
        self.func.at(position)
    }
}

impl<'a, P: Copy> FuncAtMut<'a, P> {
    pub fn at<Q: Copy>(self, position: Q) -> FuncAtMut<'a, Q> {
        self.func.at_mut(position)
    }
    pub fn reborrow(&mut self) -> FuncAtMut<'_, P> {
        self.func.at_mut(self.position)
    }
}

impl<'a> FuncAt<'a, Region> {
    pub fn def(self) -> &'a RegionDef {
        &self.func.regions[self.position]
    }
    pub fn at_children(self) -> FuncAt<'a, EntityList<Node>> {
        self.at(self.def().children)
    }
}

impl<'a> FuncAtMut<'a, Region> {
    pub fn def(self) -> &'a mut RegionDef {
        &mut self.func.regions[self.position]
    }
    pub fn at_children(self) -> FuncAtMut<'a, EntityList<Node>> {
        let children = self.func.regions[self.position].children;
        self.at(children)
    }
}

impl<'a> FuncAt<'a, Node> {
    pub fn def(self) -> &'a NodeDef {
        &self.func.nodes[self.position]
    }
}

impl<'a> FuncAtMut<'a, Node> {
    pub fn def(self) -> &'a mut NodeDef {
        &mut self.func.nodes[self.position]
    }
}

impl<'a> FuncAt<'a, DataInst> {
    pub fn def(self) -> &'a DataInstDef {
        &self.func.data_insts[self.position]
    }
}

impl<'a> FuncAtMut<'a, DataInst> {
    pub fn def(self) -> &'a mut DataInstDef {
        &mut self.func.data_insts[self.position]
    }
}

/// A list's places in order: an iterator to read, `next` alone to change.
macro_rules! lists {
    ($($entity:ident in $defs:ident),*) => {$(
        impl<'a> IntoIterator for FuncAt<'a, EntityList<$entity>> {
            type Item = FuncAt<'a, $entity>;
            type IntoIter = FuncAt<'a, EntityListIter<$entity>>;
            fn into_iter(self) -> Self::IntoIter {
                self.at(self.position.iter())
            }
        }
        impl<'a> Iterator for FuncAt<'a, EntityListIter<$entity>> {
            type Item = FuncAt<'a, $entity>;
            fn next(&mut self) -> Option<Self::Item> {
                let (first, rest) = self.position.split_first(&self.func.$defs)?;
                self.position = rest;
                Some(self.at(first))
            }
        }
        impl<'a> FuncAtMut<'a, EntityList<$entity>> {
            pub fn into_iter(self) -> FuncAtMut<'a, EntityListIter<$entity>> {
                let all = self.position.iter();
                self.at(all)
            }
        }
        impl FuncAtMut<'_, EntityListIter<$entity>> {
            pub fn next(&mut self) -> Option<FuncAtMut<'_, $entity>> {
                let (first, rest) = self.position.split_first(&self.func.$defs)?;
                self.position = rest;
                Some(self.func.at_mut(first))
            }
        }
    )*};
}
lists!(Node in nodes, DataInst in data_insts);

impl FuncAt<'_, Value> {
    /// The type a value was declared with.
    pub fn type_of(self, cx: &Context) -> Type {
        match self.position {
            Value::Const(c) => cx[c].ty,
            Value::RegionInput { region, input_idx } => {
                self.func.regions[region].inputs[input_idx as usize].ty
            }
            Value::NodeOutput { node, output_idx } => {
                self.func.nodes[node].outputs[output_idx as usize].ty
            }
            Value::DataInstOutput(inst) => {
                self.func.data_insts[inst].output_type.expect("an instruction without output")
            }
        }
    }
}
