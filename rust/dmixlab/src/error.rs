//! Why calls are refused.

use std::{error, fmt, io};

/// What a call gives, or why it is refused.
pub type Result<T> = std::result::Result<T, Error>;

/// Why a call is refused, by the error numbers that alsa-lib answers in such a case.
///
/// ```
/// use dmixlab::Error;
///
/// assert_eq!(Error::Xrun.errno(), 32);
/// assert_eq!(Error::Xrun.to_string(), "EPIPE: an underrun or overrun");
/// ```
#[derive(Clone, Copy, Debug, PartialEq, Eq, Hash)]
#[non_exhaustive]
pub enum Error {
    /// `EAGAIN`: no frame can be moved now, no place is free now, or a drain isn't done yet.
    Again,
    /// `EPIPE`: an underrun, a frame that came too late, or a reader's overrun.
    Xrun,
    /// `ENODEV`: the card is unplugged.
    NoDevice,
    /// `EBADFD`: the call isn't allowed in the state of the stream.
    BadState,
    /// `EINVAL`: a parameter is out of its range, or samples make no whole frames.
    Invalid,
    /// `ENOMEM`: no memory is left.
    Memory,
    /// `EOVERFLOW`: the ring's last lap has ended.
    LapEnd,
    /// `EIO`: the ring captures nothing.
    NotSupported,
    /// Another error number. No call of the library answers one to this crate.
    Other(i32),
}

impl Error {
    /// The error number, as Linux has it in `errno.h`.
    pub fn errno(self) -> i32 {
        match self {
            Error::NotSupported => 5,
            Error::Again => 11,
            Error::Memory => 12,
            Error::NoDevice => 19,
            Error::Invalid => 22,
            Error::Xrun => 32,
            Error::LapEnd => 75,
            Error::BadState => 77,
            Error::Other(errno) => errno,
        }
    }

    /// The error of an error number.
    fn from_errno(errno: i32) -> Error {
        match errno {
            5 => Error::NotSupported,
            11 => Error::Again,
            12 => Error::Memory,
            19 => Error::NoDevice,
            22 => Error::Invalid,
            32 => Error::Xrun,
            75 => Error::LapEnd,
            77 => Error::BadState,
            _ => Error::Other(errno),
        }
    }
}

impl fmt::Display for Error {
    fn fmt(&self, f: &mut fmt::Formatter<'_>) -> fmt::Result {
        f.write_str(match self {
            Error::Again => "EAGAIN: nothing can be moved now",
            Error::Xrun => "EPIPE: an underrun or overrun",
            Error::NoDevice => "ENODEV: the card is unplugged",
            Error::BadState => "EBADFD: not in this state",
            Error::Invalid => "EINVAL: not possible with these parameters",
            Error::Memory => "ENOMEM: no memory is left",
            Error::LapEnd => "EOVERFLOW: the ring's last lap has ended",
            Error::NotSupported => "EIO: the ring captures nothing",
            Error::Other(errno) => return write!(f, "error number {errno}"),
        })
    }
}

impl error::Error for Error {}

impl From<Error> for io::Error {
    fn from(error: Error) -> io::Error {
        io::Error::from_raw_os_error(error.errno())
    }
}

/// The number that a call of the C library answered, where it is no error number with a minus sign.
pub(crate) fn count(answer: i64) -> Result<u64> {
    u64::try_from(answer).map_err(|_| Error::from_errno(answer.wrapping_neg() as i32))
}

/// Whether a call of the C library that answers no number is done.
pub(crate) fn done(answer: i64) -> Result<()> {
    count(answer).map(drop)
}

#[cfg(test)]
mod tests {
    use super::{Error, count, done};

    #[test]
    fn each_error_number_is_kept() {
        for errno in 1..=133 {
            let error = done(-i64::from(errno)).unwrap_err();
            assert_eq!(error.errno(), errno);
        }
    }

    #[test]
    fn each_error_begins_with_its_name() {
        for errno in [5, 11, 12, 19, 22, 32, 75, 77] {
            let text = Error::from_errno(errno).to_string();
            assert!(text.starts_with('E'), "{text}");
            assert_ne!(Error::from_errno(errno), Error::Other(errno));
        }
        assert_eq!(Error::Other(1).to_string(), "error number 1");
    }

    #[test]
    fn an_answer_that_is_no_error_is_a_number() {
        assert_eq!(count(0), Ok(0));
        assert_eq!(count(i64::MAX), Ok(i64::MAX as u64));
        assert!(count(i64::MIN).is_err());
        assert_eq!(done(5), Ok(()));
    }
}
