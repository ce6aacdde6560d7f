//! A call, what it is lent, and an answer.

/// tables, code and text: what `Call::parts` has, in this order
pub const PARTS: [&str; 6] = ["rules", "classes", "vowels", "decompositions", "code", "text"];
pub type Parts<'a> = [&'a [u8]; PARTS.len()];
/// what is lent to be written
pub const ROOMS: [&str; 3] = ["slots", "room", "output"];

/// bytes of slots, text room and output
pub type Lent = [usize; 3];

/// what a call chooses; above 1 each is refused
#[derive(Clone, Copy)]
pub struct Choices {
    pub capitals: u8,
    pub o_ang: u8,
    pub readings: u8,
}

impl Choices {
    /// in the order of the call's arguments
    pub fn all(self) -> [u8; 3] {
        [self.capitals, self.o_ang, self.readings]
    }
}

#[derive(Clone, Copy)]
pub struct Call<'a> {
    pub mode: u8,
    pub choices: Choices,
    pub parts: Parts<'a>,
    pub lent: Lent,
}

/// what the library returns
#[derive(Clone, Copy, Default, PartialEq, Eq)]
pub struct Numbers {
    pub number: u64,
    pub place: u64,
    pub length: u64,
    pub edges: u64,
}

#[derive(Clone, Copy, PartialEq, Eq)]
pub struct Answer<'a> {
    pub numbers: Numbers,
    /// its `length` bytes; behind them the output is zero
    pub output: &'a [u8],
}

impl<'a> Answer<'a> {
    pub fn refused(number: u64, place: u64) -> Self {
        Answer { numbers: Numbers { number, place, length: 0, edges: 0 }, output: &[] }
    }
    pub fn done(output: &'a [u8], edges: usize) -> Self {
        let numbers = Numbers { number: 0, place: 0, length: output.len() as u64, edges: edges as u64 };
        Answer { numbers, output }
    }
}
