//! Stand-in for the crate `nom`: its complete parsers of big-endian numbers and of a count of bytes. Such a parser has
//! one way to fail, that the input ends too early; `ParseError::cut` makes the caller's error of it.

/// The complete parsers of nom give no other variant than this one.
#[derive(Debug)]
pub enum Err<E> {
    Error(E),
}

impl<E> Err<E> {
    pub fn convert<F>(error: Err<F>) -> Self
    where
        E: From<F>,
    {
        let Err::Error(error) = error;
        Err::Error(error.into())
    }
}

pub type IResult<I, O, E = error::Error> = Result<(I, O), Err<E>>;

pub mod error {
    pub trait ParseError {
        fn cut() -> Self;
    }

    #[derive(Debug)]
    pub struct Error;

    impl ParseError for Error {
        fn cut() -> Self {
            Error
        }
    }

    impl ParseError for () {
        fn cut() -> Self {}
    }
}

/// What is parsed. A trait, since the given text names the input's type as a parameter (`be_u32::<_, ()>`).
pub trait Input: Sized {
    /// The first `count` bytes, and the rest.
    fn split(self, count: usize) -> Option<(Self, Self)>;
    fn number(self) -> u32;
}

impl Input for &[u8] {
    fn split(self, count: usize) -> Option<(Self, Self)> {
        self.split_at_checked(count)
    }
    fn number(self) -> u32 {
        self.iter().fold(0, |number, byte| number << 8 | u32::from(*byte))
    }
}

/// Counts of the types with which `take` is called.
pub trait ToUsize: Copy {
    fn to_usize(self) -> usize;
}

impl ToUsize for usize {
    fn to_usize(self) -> usize {
        self
    }
}

impl ToUsize for u16 {
    fn to_usize(self) -> usize {
        self.into()
    }
}

pub mod bytes {
    pub mod complete {
        use super::super::{error::ParseError, Err, IResult, Input, ToUsize};

        pub fn take<C: ToUsize, I: Input, E: ParseError>(count: C) -> impl Fn(I) -> IResult<I, I, E> {
            move |input| match input.split(count.to_usize()) {
                Some((taken, rest)) => Ok((rest, taken)),
                None => Result::Err(Err::Error(E::cut())),
            }
        }
    }
}

pub mod number {
    pub mod complete {
        use super::super::{bytes::complete::take, error::ParseError, IResult, Input};

        pub fn be_u8<I: Input, E: ParseError>(input: I) -> IResult<I, u8, E> {
            take(1usize)(input).map(|(rest, taken): (I, I)| (rest, taken.number() as u8))
        }
        pub fn be_u16<I: Input, E: ParseError>(input: I) -> IResult<I, u16, E> {
            take(2usize)(input).map(|(rest, taken): (I, I)| (rest, taken.number() as u16))
        }
        pub fn be_u32<I: Input, E: ParseError>(input: I) -> IResult<I, u32, E> {
            take(4usize)(input).map(|(rest, taken): (I, I)| (rest, taken.number()))
        }
    }
}
