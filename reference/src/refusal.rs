//! The grounds on which a call is refused, with their numbers.

#[derive(Clone, Copy, Debug, PartialEq, Eq)]
pub enum Refusal {
    /// The file ends inside a record's head or its payload.
    FileEnds = 1,
    /// A record is not of the kind due at its place.
    Kind = 2,
    /// A record's length is not the one its kind and the counts require.
    Length = 3,
    /// A value in a payload is out of its range.
    Value = 4,
    /// Something follows the last record.
    ByteFollows = 5,
    /// No such segment.
    Segment = 6,
    /// No such strategy, resource or distress type.
    Number = 7,
    /// A new limit or rating is out of range.
    NewValue = 8,
    /// The export buffer is shorter than the file.
    Buffer = 9,
    /// Survey points: code, degree, extent or seal is not in the table.
    Survey = 10,
    /// The page buffer is shorter than the page.
    Page = 11,
    /// An index reading is no whole number of 1024ths from 0 to below 8.
    Reading = 12,
    /// Points where no reading is kept.
    NoReading = 13,
    /// A leader that is not below the segment's own number.
    Leader = 14,
    /// Turning down a file in which a leader is set.
    LeaderSet = 15,
    /// No such office.
    Office = 16,
    /// Shared tables that differ from those held while the other office has segments.
    SharedTables = 17,
    /// A field of a card that breaks the rules for fields, or is out of its range.
    Field = 18,
    /// A deck that ends too early, or has a line of another length.
    Card = 19,
    /// No such console.
    Console = 20,
    /// The console's queue is full.
    Queue = 21,
}

impl Refusal {
    pub fn number(self) -> u8 {
        self as u8
    }
}
