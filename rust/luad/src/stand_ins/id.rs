//! Stand-in for luad-core's unpublished module `id`.
use std::rc::Rc;

/// The way from the main prototype to a prototype: a child index for each level.
#[derive(Debug, Clone, PartialEq, Eq, Hash)]
pub struct ProtoPath(Rc<[usize]>);

impl ProtoPath {
    pub fn root() -> Self {
        Self(Rc::new([]))
    }

    pub fn child(&self, index: usize) -> Self {
        Self(self.0.iter().copied().chain([index]).collect())
    }

    pub fn depth(&self) -> usize {
        self.0.len()
    }
}

/// What a diagnostic or a piece of the model is about.
#[derive(Debug, Clone, PartialEq, Eq)]
pub enum StableId {
    Chunk,
    Proto(ProtoPath),
    Instruction(ProtoPath, usize),
    Constant(ProtoPath, usize),
    Upvalue(ProtoPath, usize),
    Local(ProtoPath, usize),
}

impl StableId {
    pub fn proto(path: ProtoPath) -> Self {
        Self::Proto(path)
    }

    pub fn instruction(path: ProtoPath, pc: usize) -> Self {
        Self::Instruction(path, pc)
    }

    pub fn constant(path: ProtoPath, index: usize) -> Self {
        Self::Constant(path, index)
    }

    pub fn upvalue(path: ProtoPath, index: usize) -> Self {
        Self::Upvalue(path, index)
    }

    pub fn local(path: ProtoPath, index: usize) -> Self {
        Self::Local(path, index)
    }
}
