//! The calls, in one list: each with its arguments, the rows that it is lent, what comes back, and the numbers that it
//! can give. A new call is a new line of it: the compiler then asks for it wherever one call is told from another.

use std::borrow::Cow;
use std::fmt;
use std::ops::Range;

use crate::given::Argument;
use crate::shape::{Answer, Lead, Outcome, State, ROWS, SECURE};

/// What makes calls: the library, the model.
pub trait Chip {
    /// Makes a call. One that cannot change the state gives it back as it was passed.
    fn make(&self, call: &Call, rows: &mut [u32], state: State) -> Outcome;

    /// Reads a row with ECC once for each of these entries in it: as Secure, on a chip that is blank otherwise.
    fn read_each(&self, row: u32, entries: Range<u32>) -> Vec<Answer> {
        let mut rows = vec![0; ROWS];
        let call = Call::ReadEcc { caller: SECURE, row };
        let read = |entry| {
            rows[row as usize] = entry;
            self.make(&call, &mut rows, State::blank()).answer
        };
        entries.map(read).collect()
    }
}

/// For what a call is lent the rows, if it is.
#[derive(Clone, Copy, Debug, PartialEq, Eq)]
pub enum Lent {
    Never,
    ToRead,
    ToBurn,
}

/// What comes back: an answer alone, or the state too, or the state and the report, or the note and the area, or the output; or what the reader
/// hands over, or a card.
#[derive(Clone, Copy, Debug, PartialEq, Eq)]
pub enum Back {
    Answer,
    State,
    Report,
    Lead,
    Output,
    Handed,
    Card,
}

/// What holds of a call whatever its arguments are. The numbers are in the order of their standing.
pub struct Kind {
    pub name: &'static str,
    pub lent: Lent,
    pub back: Back,
    pub numbers: &'static [u32],
}

/// Makes of the list the type of a call, the kinds of calls, and the way from a call to its line and its arguments.
macro_rules! calls {
    ($($name:literal $call:ident { $($argument:ident: $type:ty),* } $lent:ident, $back:ident, $numbers:expr;)*) => {
        #[derive(Clone, Debug)]
        pub enum Call {
            $($call { $($argument: $type),* },)*
        }

        pub const CALLS: &[Kind] = &[
            $(Kind { name: $name, lent: Lent::$lent, back: Back::$back, numbers: &$numbers },)*
        ];

        impl Call {
            /// The call's place in the list.
            pub fn index(&self) -> usize {
                enum Place {
                    $($call,)*
                }
                match self {
                    $(Call::$call { .. } => Place::$call as usize,)*
                }
            }

            /// The arguments with their names, in the order of the list.
            fn arguments(&self) -> Vec<(&'static str, Argument<'_>)> {
                match self {
                    $(Call::$call { $($argument),* } => vec![$((stringify!($argument), Argument::from($argument))),*],)*
                }
            }
        }
    };
}

calls! {
    "reset"      Reset {}                                                    ToRead, State,  [0, 1, 3];
    "read_raw"   ReadRaw { caller: u32, row: u32 }                           ToRead, Answer, [0, 1, 4, 2, 6, 7, 3];
    "read_ecc"   ReadEcc { caller: u32, row: u32 }                           ToRead, Answer, [0, 1, 4, 2, 5, 6, 7, 3, 8];
    "read_vote"  ReadVote { caller: u32, row: u32, count: u32 }              ToRead, Answer, [0, 1, 4, 2, 5, 6, 7, 3];
    "write_raw"  WriteRaw { caller: u32, row: u32, value: u32 }              ToBurn, State,  [0, 1, 4, 2, 6, 7, 3];
    "write_ecc"  WriteEcc { caller: u32, row: u32, value: u32 }              ToBurn, State,  [0, 1, 4, 2, 5, 6, 7, 3, 9];
    "advance"    Advance { caller: u32, domain: u32, page: u32, level: u32 } Never,  State,  [0, 4, 7];
    "show"       Show { caller: u32, domain: u32, page: u32 }                Never,  Answer, [0, 4];
    "enter_key"  EnterKey { caller: u32, key: Vec<u8> }                      Never,  State,  [0, 4, 7];
    "run_job"    RunJob { job: Vec<u8> }                                     ToBurn, State,  [0, 1, 10, 11, 7, 3, 9];
    "rehearse"   Rehearse { limit: u32, job: Vec<u8> }                       ToBurn, State,  [0, 1, 10, 11, 7, 3, 9];
    "take_chunk" TakeChunk { lead: Lead, chunk: Vec<u8> }                    Never,  Lead,   [0, 12];
    "end_job"    EndJob { lead: Lead }                                       ToBurn, State,  [0, 1, 12, 10, 11, 7, 3, 9];
    "make_job"   MakeJob { wanted: Option<Vec<u32>>, out: Vec<u8> }          ToRead, Output, [0, 1, 3, 13, 11, 14, 12];
    "next_entry" NextEntry { at: u64, job: Vec<u8> }                         Never,  Handed, [0, 10];
    "repair"     Repair { report: Vec<u32>, list: Vec<u32> }                 ToBurn, Report, [0, 1, 11, 12, 3];
    "read_card"  ReadCard {}                                                 ToRead, Card,   [0, 1, 7, 3, 8, 15, 16, 17];
    "write_card" WriteCard { version: u32, width: u32, height: u32, line: u32, area: Vec<u8> } Never, Output, [0, 16, 17, 12];
}

impl Call {
    pub fn kind(&self) -> &'static Kind {
        &CALLS[self.index()]
    }

    /// Whether the call is lent rows.
    pub fn takes_rows(&self) -> bool {
        self.kind().lent != Lent::Never
    }

    /// The arguments that are numbers, then zeros: the driver takes four.
    pub fn numbers(&self) -> [u32; 4] {
        let mut four = [0; 4];
        let numbers = self
            .arguments()
            .into_iter()
            .flat_map(|(_, argument)| argument.numbers());
        for (place, number) in numbers.enumerate() {
            four[place] = number;
        }
        four
    }

    /// The bytes of a key, a job, an output or a card's area, or those of an area and of a chunk, or of a report and of a list, where the call has them: the
    /// driver takes two lots, of which the first may come back.
    pub fn bytes(&self) -> [Cow<'_, [u8]>; 2] {
        let mut lots = self
            .arguments()
            .into_iter()
            .filter_map(|(_, argument)| argument.bytes());
        [(); 2].map(|()| lots.next().unwrap_or_default())
    }

    /// The second image that the call is lent, where it is not the rows once more.
    pub fn image(&self) -> &[u32] {
        let image = |(_, argument)| match argument {
            Argument::Image(image) => image,
            _ => None,
        };
        self.arguments().into_iter().find_map(image).unwrap_or_default()
    }

    /// The rows that the call names: the first, and how many.
    pub fn rows(&self) -> Option<(u32, u32)> {
        let row = self.number("row")?;
        let count = self.number("count").unwrap_or(1);
        Some((row, count.min(8)))
    }

    /// The number of an argument that the call has.
    fn number(&self, wanted: &str) -> Option<u32> {
        self.arguments()
            .into_iter()
            .find_map(|(name, argument)| match argument {
                Argument::Number(number) if name == wanted => Some(number),
                _ => None,
            })
    }
}

impl fmt::Display for Call {
    fn fmt(&self, out: &mut fmt::Formatter) -> fmt::Result {
        write!(out, "{}", self.kind().name)?;
        for (name, argument) in self.arguments() {
            argument.show(name, out)?;
        }
        Ok(())
    }
}
