//! The part of `anyhow` that the reference uses: an error that is a text.

pub type Result<T, E = Error> = std::result::Result<T, E>;

#[derive(Debug)]
pub struct Error(pub String);

impl<E: std::error::Error> From<E> for Error {
    fn from(e: E) -> Error {
        Error(e.to_string())
    }
}

#[macro_export]
macro_rules! bail {
    ($($text:tt)*) => {
        return Err($crate::Error(format!($($text)*)))
    };
}

#[macro_export]
macro_rules! ensure {
    ($test:expr $(,)?) => {
        if !$test {
            return Err($crate::Error(stringify!($test).to_string()));
        }
    };
    ($test:expr, $($text:tt)*) => {
        if !$test {
            return Err($crate::Error(format!($($text)*)));
        }
    };
}
