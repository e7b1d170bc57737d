//! Calls and answers by numbers, as both programs take and give them: the structs of include/gombultsei.h.

#[repr(C)]
#[derive(Clone, Copy, PartialEq, Eq, Debug, Default)]
pub struct CallNumbers {
    pub kind: u8,
    pub strength: u8,
    pub shim: u32,
    pub line: u32,
    pub value: u32,
}

#[repr(C)]
#[derive(Clone, Copy, PartialEq, Eq, Debug, Default)]
pub struct AnswerNumbers {
    pub kind: u32,
    pub number: u32,
    pub carried: u64,
}

#[repr(C)]
#[derive(Clone, Copy, PartialEq, Eq, Debug, Default)]
pub struct Exchange {
    pub call: CallNumbers,
    pub answer: AnswerNumbers,
}

pub const LOAD: u8 = 1;
pub const STORE: u8 = 2;
pub const FENCE: u8 = 3;
pub const EVICT: u8 = 4;
pub const UP: u8 = 5;
pub const DOWN: u8 = 6;

pub const DONE: u32 = 1;
pub const WAITS: u32 = 2;
pub const VALUE: u32 = 3;
pub const ENDED: u32 = 4;
pub const HANDLED: u32 = 5;
pub const REFUSED: u32 = 6;
