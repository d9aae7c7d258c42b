//! Operations and their bytes.

use crate::table::Kind;

#[derive(Clone, Copy, Debug, PartialEq, Eq, Hash)]
pub enum Operation {
    Access(Kind),
    Fence(usize),
}

const ACCESSES: [(u8, Kind); 4] = [
    (b'l', Kind::Ld),
    (b'L', Kind::Cld),
    (b's', Kind::St),
    (b'S', Kind::Cst),
];
const FENCES: &[u8; 16] = b"0123456789ABCDEF";

impl Operation {
    pub fn of_byte(byte: u8) -> Option<Operation> {
        let access = ACCESSES.iter().find(|(own, _)| *own == byte);
        let fence = FENCES.iter().position(|own| *own == byte);
        access
            .map(|(_, kind)| Operation::Access(*kind))
            .or(fence.map(Operation::Fence))
    }

    pub fn byte(self) -> u8 {
        match self {
            Operation::Access(Kind::Ld) => b'l',
            Operation::Access(Kind::Cld) => b'L',
            Operation::Access(Kind::St) => b's',
            Operation::Access(Kind::Cst) => b'S',
            Operation::Fence(number) => FENCES[number],
        }
    }
}

/// The operations of a machine in the order that numbers its states.
pub fn alphabet(upstream_fences: usize) -> Vec<Operation> {
    let accesses = ACCESSES.iter().map(|(_, kind)| Operation::Access(*kind));
    accesses
        .chain((0..upstream_fences).map(Operation::Fence))
        .collect()
}

pub fn bytes(stream: &[Operation]) -> Vec<u8> {
    stream.iter().map(|operation| operation.byte()).collect()
}

/// Nothing where some byte is no operation.
pub fn operations(bytes: &[u8]) -> Option<Vec<Operation>> {
    bytes.iter().map(|byte| Operation::of_byte(*byte)).collect()
}

pub fn fences(stream: &[Operation]) -> usize {
    stream
        .iter()
        .filter(|operation| matches!(operation, Operation::Fence(_)))
        .count()
}
