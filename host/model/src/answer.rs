//! What a call gives back: five numbers, or a refusal with its number and place.

/// Document 01's table of refusals, in its order.
#[derive(Clone, Copy, Debug, PartialEq, Eq)]
pub enum Refusal {
    TooLong,
    NotOfTheForm(usize),
    NameRepeats(usize),
    NoOperation(usize),
    NoSuchFence(usize),
    NoFenceWillDo(usize),
    BufferTooSmall,
    TooManySituations,
    TooManyStates,
    BadBlock(usize),
    BarredByte(usize),
    OutOfRange,
}

impl Refusal {
    pub fn number(self) -> u64 {
        match self {
            Refusal::TooLong => 1,
            Refusal::NotOfTheForm(_) => 2,
            Refusal::NameRepeats(_) => 3,
            Refusal::NoOperation(_) => 4,
            Refusal::NoSuchFence(_) => 5,
            Refusal::NoFenceWillDo(_) => 6,
            Refusal::BufferTooSmall => 7,
            Refusal::TooManySituations => 8,
            Refusal::TooManyStates => 9,
            Refusal::BadBlock(_) => 10,
            Refusal::BarredByte(_) => 11,
            Refusal::OutOfRange => 12,
        }
    }

    pub fn place(self) -> u64 {
        match self {
            Refusal::NotOfTheForm(place)
            | Refusal::NameRepeats(place)
            | Refusal::NoOperation(place)
            | Refusal::NoSuchFence(place)
            | Refusal::NoFenceWillDo(place)
            | Refusal::BadBlock(place)
            | Refusal::BarredByte(place) => place as u64,
            _ => 0,
        }
    }
}

/// The five numbers that every call sets.
#[derive(Clone, Copy, Debug, Default, PartialEq, Eq)]
pub struct Answer {
    pub number: u64,
    pub place: u64,
    pub written: u64,
    pub fences: u64,
    pub state: u64,
}

impl Answer {
    /// The order in which the C border hands the numbers over.
    pub fn numbers(self) -> [u64; 5] {
        [
            self.number,
            self.place,
            self.written,
            self.fences,
            self.state,
        ]
    }
}

impl From<Refusal> for Answer {
    fn from(refusal: Refusal) -> Answer {
        Answer {
            number: refusal.number(),
            place: refusal.place(),
            ..Answer::default()
        }
    }
}

/// Refuses what is over its limit.
pub fn within(bytes: &[u8], limit: usize) -> Result<(), Refusal> {
    if bytes.len() > limit {
        Err(Refusal::TooLong)
    } else {
        Ok(())
    }
}

/// Writes all of `bytes` at the front of `out`, or refuses and writes nothing.
pub fn deliver(bytes: &[u8], out: &mut [u8]) -> Result<Answer, Refusal> {
    let part = out.get_mut(..bytes.len()).ok_or(Refusal::BufferTooSmall)?;
    part.copy_from_slice(bytes);
    Ok(Answer {
        written: bytes.len() as u64,
        ..Answer::default()
    })
}
