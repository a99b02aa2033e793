//! The refusals and exceptions: what each is called and which number it has.

#[derive(Clone, Copy, PartialEq, Eq, Debug)]
pub enum Number {
    NotAttached,
    InterfaceDataCheck,
    Busy,
    CommandReject,
    Idle,
    NothingWaits,
    SpecificationCheck,
    StorageDataCheck,
    InvalidAddress,
    ProtectCheck,
    NoRecordFound,
    FileDataCheck,
    EndOfTrack,
    SeekCheck,
    NotReady,
    Length,
    Header,
    Record,
    Chain,
    Double,
    NoSuchPlace,
    MarksFull,
}

impl Number {
    pub fn number(self) -> u8 {
        self.entry().0
    }

    pub fn word(self) -> &'static str {
        self.entry().1
    }

    fn entry(self) -> (u8, &'static str) {
        match self {
            Number::NotAttached => (1, "not attached"),
            Number::InterfaceDataCheck => (2, "interface data check"),
            Number::Busy => (3, "busy"),
            Number::CommandReject => (4, "command reject"),
            Number::Idle => (5, "idle"),
            Number::NothingWaits => (6, "nothing waits"),
            Number::SpecificationCheck => (11, "specification check"),
            Number::StorageDataCheck => (12, "storage data check"),
            Number::InvalidAddress => (13, "invalid address"),
            Number::ProtectCheck => (14, "protect check"),
            Number::NoRecordFound => (15, "no record found"),
            Number::FileDataCheck => (16, "file data check"),
            Number::EndOfTrack => (17, "end of track"),
            Number::SeekCheck => (18, "seek check"),
            Number::NotReady => (19, "not ready"),
            Number::Length => (21, "length"),
            Number::Header => (22, "header"),
            Number::Record => (24, "record"),
            Number::Chain => (25, "chain"),
            Number::Double => (26, "double"),
            Number::NoSuchPlace => (28, "no such place"),
            Number::MarksFull => (29, "marks full"),
        }
    }

    /// The condition code that a refused command answers.
    pub fn command_code(self) -> u8 {
        match self {
            Number::NotAttached => 0,
            Number::Busy => 1,
            Number::InterfaceDataCheck => 5,
            _ => 3,
        }
    }

    /// The status byte of an exception, the high byte of its interrupt ID word.
    pub fn status_byte(self) -> u8 {
        match self {
            Number::SpecificationCheck => 0x10,
            Number::StorageDataCheck => 0x08,
            Number::InvalidAddress => 0x04,
            Number::ProtectCheck => 0x02,
            _ => 0x80,
        }
    }
}
