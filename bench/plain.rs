//! The board of docs/PROTOCOL.md as a plain Rust program, with vectors as lanes. It shares no code with the library.

use std::collections::VecDeque;

use crate::numbers::{self, AnswerNumbers, Exchange};

/// As many as a lane of the ring can hold.
const LANE_CAPACITY: usize = 16;
const MAX_SHIMS: u32 = 8;
const MAX_LINES: u32 = 64;
const LIMIT: u32 = 1_000_000;
const SYNCHRONISE: u8 = 16;

#[derive(Clone, Copy, PartialEq, Eq)]
enum Kind {
    Write = 1,
    ReadRequest,
    ReadResponse,
    FenceRequest,
    FenceResponse,
    WriteAck,
    Drop,
}

#[derive(Clone, Copy, PartialEq, Eq)]
enum Strength {
    Relaxed,
    Acquire,
    Release,
    SeqCst,
}

impl Strength {
    fn new(number: u8) -> Option<Strength> {
        match number {
            0 => Some(Strength::Relaxed),
            1 => Some(Strength::Acquire),
            2 => Some(Strength::Release),
            3 => Some(Strength::SeqCst),
            _ => None,
        }
    }
}

#[derive(Clone, Copy)]
struct Message {
    kind: Kind,
    line: u8,
    mark: u8,
    sender: u8,
    value: u32,
    stamp: u32,
}

impl Message {
    fn asks_sync(&self) -> bool {
        self.mark & SYNCHRONISE != 0
    }

    fn strength(&self) -> u8 {
        self.mark % SYNCHRONISE
    }

    fn is_sc(&self) -> bool {
        self.strength() == Strength::SeqCst as u8
    }
}

#[derive(Clone, Copy, PartialEq, Eq)]
enum Wait {
    Load(u8),
    Store(u8),
    Fence,
}

#[derive(Clone, Copy)]
struct Held {
    settled: bool,
    copy: u32,
    stamp: u32,
}

#[derive(Clone)]
struct Shim {
    wait: Option<Wait>,
    lines: Vec<Option<Held>>,
}

#[derive(Clone, Default)]
struct HubLine {
    word: u32,
    stamp: u32,
    sharers: [bool; MAX_SHIMS as usize],
}

enum Answer {
    Done,
    Waits,
    Value(u32),
    Ended,
    Handled(Kind),
}

enum Refusal {
    WrongSize,
    NoShim,
    NoLine,
    WrongStrength,
    ShimWaits,
    NotHeld,
    Unsettled,
    AtLimit,
    Full(usize),
    Empty(usize),
    Foreign(usize),
}

type Outcome = Result<Answer, Refusal>;

struct Board {
    stores: u32,
    hub: Vec<HubLine>,
    shims: Vec<Shim>,
    lanes: Vec<VecDeque<Message>>,
}

fn up_lane(shim: usize) -> usize {
    2 * shim
}

fn down_lane(shim: usize) -> usize {
    2 * shim + 1
}

impl Board {
    fn new(shims: u32, lines: u32) -> Result<Board, Refusal> {
        if !(1..=MAX_SHIMS).contains(&shims) || !(1..=MAX_LINES).contains(&lines) {
            return Err(Refusal::WrongSize);
        }
        let shim = Shim {
            wait: None,
            lines: vec![None; lines as usize],
        };
        Ok(Board {
            stores: 0,
            hub: vec![HubLine::default(); lines as usize],
            shims: vec![shim; shims as usize],
            lanes: (0..2 * shims)
                .map(|_| VecDeque::with_capacity(LANE_CAPACITY))
                .collect(),
        })
    }

    fn shim(&self, shim: u32) -> Result<usize, Refusal> {
        let shim = shim as usize;
        if shim < self.shims.len() {
            Ok(shim)
        } else {
            Err(Refusal::NoShim)
        }
    }

    fn line(&self, line: u32) -> Result<usize, Refusal> {
        let line = line as usize;
        if line < self.hub.len() {
            Ok(line)
        } else {
            Err(Refusal::NoLine)
        }
    }

    fn check_ready(&self, shim: usize) -> Result<(), Refusal> {
        match self.shims[shim].wait {
            None => Ok(()),
            Some(_) => Err(Refusal::ShimWaits),
        }
    }

    fn put(&mut self, lane: usize, message: Message) -> Result<(), Refusal> {
        let queue = &mut self.lanes[lane];
        if queue.len() >= LANE_CAPACITY {
            return Err(Refusal::Full(lane));
        }
        queue.push_back(message);
        Ok(())
    }

    fn send_up(
        &mut self,
        shim: usize,
        kind: Kind,
        line: usize,
        mark: u8,
        value: u32,
    ) -> Result<(), Refusal> {
        self.put(
            up_lane(shim),
            Message {
                kind,
                line: line as u8,
                mark,
                sender: shim as u8,
                value,
                stamp: 0,
            },
        )
    }

    fn load(&mut self, shim: u32, line: u32, strength: u8) -> Outcome {
        let shim = self.shim(shim)?;
        let line = self.line(line)?;
        let strength = Strength::new(strength)
            .filter(|&strength| strength != Strength::Release)
            .ok_or(Refusal::WrongStrength)?;
        self.check_ready(shim)?;
        if let Some(held) = &self.shims[shim].lines[line] {
            return Ok(Answer::Value(held.copy));
        }
        self.send_up(shim, Kind::ReadRequest, line, strength as u8, 0)?;
        self.shims[shim].wait = Some(Wait::Load(line as u8));
        Ok(Answer::Waits)
    }

    fn store(&mut self, shim: u32, line: u32, strength: u8, value: u32) -> Outcome {
        let shim = self.shim(shim)?;
        let line = self.line(line)?;
        let strength = Strength::new(strength)
            .filter(|&strength| strength != Strength::Acquire)
            .ok_or(Refusal::WrongStrength)?;
        self.check_ready(shim)?;
        let held = self.shims[shim].lines[line];
        let stamp = held.map_or(0, |held| held.stamp);
        if self.stores >= LIMIT || stamp >= LIMIT {
            return Err(Refusal::AtLimit);
        }
        let asked = if held.is_none() { SYNCHRONISE } else { 0 };
        self.send_up(shim, Kind::Write, line, strength as u8 + asked, value)?;
        self.stores += 1;
        let shim = &mut self.shims[shim];
        shim.lines[line] = Some(Held {
            settled: held.is_some_and(|held| held.settled),
            copy: value,
            stamp: stamp + 1,
        });
        if strength == Strength::SeqCst {
            shim.wait = Some(Wait::Store(line as u8));
            return Ok(Answer::Waits);
        }
        Ok(Answer::Done)
    }

    fn fence(&mut self, shim: u32, strength: u8) -> Outcome {
        let shim = self.shim(shim)?;
        if Strength::new(strength) != Some(Strength::SeqCst) {
            return Err(Refusal::WrongStrength);
        }
        self.check_ready(shim)?;
        self.send_up(shim, Kind::FenceRequest, 0, Strength::SeqCst as u8, 0)?;
        self.shims[shim].wait = Some(Wait::Fence);
        Ok(Answer::Waits)
    }

    fn evict(&mut self, shim: u32, line: u32) -> Outcome {
        let shim = self.shim(shim)?;
        let line = self.line(line)?;
        self.check_ready(shim)?;
        match &self.shims[shim].lines[line] {
            None => return Err(Refusal::NotHeld),
            Some(held) if !held.settled => return Err(Refusal::Unsettled),
            Some(_) => {}
        }
        self.send_up(shim, Kind::Drop, line, 0, 0)?;
        self.shims[shim].lines[line] = None;
        Ok(Answer::Done)
    }

    fn first(&self, lane: usize) -> Result<Message, Refusal> {
        self.lanes[lane]
            .front()
            .copied()
            .ok_or(Refusal::Empty(lane))
    }

    fn up(&mut self, shim: u32) -> Outcome {
        let shim = self.shim(shim)?;
        let lane = up_lane(shim);
        let message = self.first(lane)?;
        let sender = message.sender as usize;
        let hub = self
            .hub
            .get(message.line as usize)
            .filter(|hub| sender == shim && hub.performs(&message))
            .ok_or(Refusal::Foreign(lane))?;
        for (other, down) in self.lanes.iter().skip(1).step_by(2).enumerate() {
            if down.len() >= LANE_CAPACITY && hub.reply(&message, other).is_some() {
                return Err(Refusal::Full(down_lane(other)));
            }
        }
        self.lanes[lane].pop_front();
        for (other, down) in self.lanes.iter_mut().skip(1).step_by(2).enumerate() {
            if let Some(reply) = hub.reply(&message, other) {
                down.push_back(reply);
            }
        }
        self.hub[message.line as usize].perform(&message);
        Ok(Answer::Handled(message.kind))
    }

    fn down(&mut self, shim: u32) -> Outcome {
        let shim = self.shim(shim)?;
        let lane = down_lane(shim);
        let message = self.first(lane)?;
        let foreign = message.line as usize >= self.hub.len()
            || message.sender as usize >= self.shims.len()
            || message.stamp > LIMIT;
        if foreign {
            return Err(Refusal::Foreign(lane));
        }
        let answer = self.shims[shim]
            .hear(&message)
            .ok_or(Refusal::Foreign(lane))?;
        self.lanes[lane].pop_front();
        Ok(answer)
    }
}

impl HubLine {
    fn performs(&self, message: &Message) -> bool {
        match message.kind {
            Kind::Write => self.stamp < LIMIT,
            Kind::ReadRequest | Kind::FenceRequest | Kind::Drop => true,
            Kind::ReadResponse | Kind::FenceResponse | Kind::WriteAck => false,
        }
    }

    /// What a shim is sent when the message is performed.
    fn reply(&self, message: &Message, shim: usize) -> Option<Message> {
        let own = message.sender as usize == shim;
        match message.kind {
            Kind::Write if own => (message.asks_sync() || message.is_sc()).then_some(Message {
                kind: Kind::WriteAck,
                value: 0,
                stamp: self.stamp,
                ..*message
            }),
            Kind::Write => self.sharers[shim].then_some(Message {
                mark: message.strength(),
                stamp: self.stamp + 1,
                ..*message
            }),
            Kind::ReadRequest => own.then_some(Message {
                kind: Kind::ReadResponse,
                value: self.word,
                stamp: self.stamp,
                ..*message
            }),
            Kind::FenceRequest => Some(Message {
                kind: if own {
                    Kind::FenceResponse
                } else {
                    Kind::FenceRequest
                },
                line: 0,
                mark: Strength::SeqCst as u8,
                sender: message.sender,
                value: 0,
                stamp: 0,
            }),
            _ => None,
        }
    }

    fn perform(&mut self, message: &Message) {
        let sender = message.sender as usize;
        match message.kind {
            Kind::Write => {
                self.word = message.value;
                self.stamp += 1;
                if message.asks_sync() {
                    self.sharers[sender] = true;
                }
            }
            Kind::ReadRequest => self.sharers[sender] = true,
            Kind::Drop => self.sharers[sender] = false,
            _ => {}
        }
    }
}

impl Shim {
    /// Hands the shim a message that came down; none, and no change, where it is foreign.
    fn hear(&mut self, message: &Message) -> Option<Answer> {
        let line = &mut self.lines[message.line as usize];
        match message.kind {
            Kind::Write => {
                if message.stamp == 0 {
                    return None;
                }
                if let Some(held) = line.as_mut().filter(|held| held.settled) {
                    if message.stamp > held.stamp {
                        held.copy = message.value;
                        held.stamp = message.stamp;
                    } else if held.stamp < LIMIT {
                        held.stamp += 1;
                    } else {
                        return None;
                    }
                }
                Some(Answer::Handled(message.kind))
            }
            Kind::ReadResponse => {
                if self.wait != Some(Wait::Load(message.line)) {
                    return None;
                }
                *line = Some(Held {
                    settled: true,
                    copy: message.value,
                    stamp: message.stamp,
                });
                self.wait = None;
                Some(Answer::Value(message.value))
            }
            Kind::FenceRequest => Some(Answer::Handled(message.kind)),
            Kind::FenceResponse => {
                if self.wait != Some(Wait::Fence) || message.line != 0 {
                    return None;
                }
                self.wait = None;
                Some(Answer::Ended)
            }
            Kind::WriteAck => {
                let ends = message.is_sc();
                if !ends && !message.asks_sync() {
                    return None;
                }
                if ends && self.wait != Some(Wait::Store(message.line)) {
                    return None;
                }
                if message.asks_sync() {
                    let held = line.as_mut().filter(|held| !held.settled)?;
                    if held.stamp + message.stamp > LIMIT {
                        return None;
                    }
                    held.settled = true;
                    held.stamp += message.stamp;
                }
                if !ends {
                    return Some(Answer::Handled(message.kind));
                }
                self.wait = None;
                Some(Answer::Ended)
            }
            Kind::ReadRequest | Kind::Drop => None,
        }
    }
}

impl From<&Refusal> for u8 {
    fn from(refusal: &Refusal) -> u8 {
        match refusal {
            Refusal::WrongSize => 1,
            Refusal::NoShim => 3,
            Refusal::NoLine => 4,
            Refusal::WrongStrength => 5,
            Refusal::ShimWaits => 6,
            Refusal::NotHeld => 7,
            Refusal::Unsettled => 8,
            Refusal::AtLimit => 9,
            Refusal::Full(_) => 10,
            Refusal::Empty(_) => 11,
            Refusal::Foreign(_) => 12,
        }
    }
}

impl From<Outcome> for AnswerNumbers {
    fn from(outcome: Outcome) -> AnswerNumbers {
        let said = |kind, number, carried| AnswerNumbers {
            kind,
            number,
            carried,
        };
        match outcome {
            Ok(Answer::Done) => said(numbers::DONE, 0, 0),
            Ok(Answer::Waits) => said(numbers::WAITS, 0, 0),
            Ok(Answer::Value(word)) => said(numbers::VALUE, 0, word.into()),
            Ok(Answer::Ended) => said(numbers::ENDED, 0, 0),
            Ok(Answer::Handled(kind)) => said(numbers::HANDLED, kind as u32, 0),
            Err(refusal) => {
                let lane = match refusal {
                    Refusal::Full(lane) | Refusal::Empty(lane) | Refusal::Foreign(lane) => lane,
                    _ => 0,
                };
                said(numbers::REFUSED, u8::from(&refusal).into(), lane as u64)
            }
        }
    }
}

/// Makes a board and does the calls of the list on it. The answer is 0, or the number of the refusal to make it.
pub fn run(shims: u32, lines: u32, exchanges: &mut [Exchange]) -> u8 {
    let mut board = match Board::new(shims, lines) {
        Ok(board) => board,
        Err(refusal) => return u8::from(&refusal),
    };
    for Exchange { call, answer } in exchanges {
        *answer = match call.kind {
            numbers::LOAD => board.load(call.shim, call.line, call.strength).into(),
            numbers::STORE => board
                .store(call.shim, call.line, call.strength, call.value)
                .into(),
            numbers::FENCE => board.fence(call.shim, call.strength).into(),
            numbers::EVICT => board.evict(call.shim, call.line).into(),
            numbers::UP => board.up(call.shim).into(),
            numbers::DOWN => board.down(call.shim).into(),
            _ => AnswerNumbers::default(),
        };
    }
    0
}
