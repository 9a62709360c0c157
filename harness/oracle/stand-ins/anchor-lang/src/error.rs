//! Errors, and the macros that end a call with one.

#[derive(Clone, Copy, Debug, PartialEq, Eq)]
pub struct ProgramError;

/// An `#[error_code]` number (6000 and up), or 1 for a `ProgramError`.
#[derive(Clone, Copy, Debug, PartialEq, Eq)]
pub struct Error {
    pub code: u32,
}

impl From<ProgramError> for Error {
    fn from(_: ProgramError) -> Error {
        Error { code: 1 }
    }
}

#[macro_export]
macro_rules! error {
    ($e:expr $(,)?) => {
        $crate::error::Error::from($e)
    };
}

#[macro_export]
macro_rules! require {
    ($c:expr, $e:expr $(,)?) => {
        if !($c) {
            return Err($crate::error!($e));
        }
    };
}

#[macro_export]
macro_rules! require_keys_eq {
    ($a:expr, $b:expr, $e:expr $(,)?) => {
        if $a != $b {
            return Err($crate::error!($e));
        }
    };
}
