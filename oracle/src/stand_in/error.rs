//! Stand-in for `crate::error`. The variants that the given text names are its own; the others of `parser` carry where it
//! stopped, so that a refusal of the Rust can be held against a number of document 01.

#[derive(Debug)]
pub enum StreamingError {
    Closed,
    SequenceNumberTooHigh,
    Malformed,
}

impl From<parser::PacketParseError> for StreamingError {
    fn from(_: parser::PacketParseError) -> Self {
        Self::Malformed
    }
}

pub mod parser {
    use crate::stand_in::nom::{error::ParseError, Err};

    #[derive(Debug)]
    pub enum PacketParseError {
        Cut,
        InvalidNackList,
        Flags(FlagsParseError),
    }

    #[derive(Debug)]
    pub enum FlagsParseError {
        Cut,
        DestinationMissing,
        Destination(DestinationParseError),
        Offline(OfflineSignatureParseError),
    }

    #[derive(Debug)]
    pub enum DestinationParseError {
        Cut,
        OtherForm,
    }

    #[derive(Debug)]
    pub struct OfflineSignatureParseError;

    impl PacketParseError {
        /// The number that document 01 gives to this refusal.
        pub fn number(&self) -> u64 {
            match self {
                Self::Cut | Self::InvalidNackList => 1,
                Self::Flags(FlagsParseError::Cut) => 3,
                Self::Flags(FlagsParseError::Destination(DestinationParseError::Cut)) => 3,
                Self::Flags(FlagsParseError::Destination(DestinationParseError::OtherForm)) => 4,
                Self::Flags(FlagsParseError::DestinationMissing) => 5,
                Self::Flags(FlagsParseError::Offline(_)) => 6,
            }
        }
    }

    impl ParseError for PacketParseError {
        fn cut() -> Self {
            Self::Cut
        }
    }

    impl ParseError for FlagsParseError {
        fn cut() -> Self {
            Self::Cut
        }
    }

    impl ParseError for DestinationParseError {
        fn cut() -> Self {
            Self::Cut
        }
    }

    impl From<Err<PacketParseError>> for PacketParseError {
        fn from(error: Err<PacketParseError>) -> Self {
            let Err::Error(error) = error;
            error
        }
    }

    impl From<FlagsParseError> for PacketParseError {
        fn from(error: FlagsParseError) -> Self {
            Self::Flags(error)
        }
    }

    impl From<DestinationParseError> for FlagsParseError {
        fn from(error: DestinationParseError) -> Self {
            Self::Destination(error)
        }
    }

    impl From<OfflineSignatureParseError> for FlagsParseError {
        fn from(error: OfflineSignatureParseError) -> Self {
            Self::Offline(error)
        }
    }
}
