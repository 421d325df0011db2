//! Asks the crate for EAN-13: its answers, and the right check, found from its answers alone.
use barcoders::error::Error;
use barcoders::sym::ean13::EAN13;

/// The crate's answer to some bytes.
#[derive(Clone, Debug, PartialEq, Eq)]
pub enum Crate {
    /// The bytes are no UTF-8, so there is no text to ask with.
    NoText,
    /// `Error::Length`.
    Length,
    /// `Error::Character`.
    Character,
    /// `Error::Checksum`.
    Checksum,
    /// The row.
    Row(Vec<u8>),
}

/// Asks the crate.
pub fn ask(text: &[u8]) -> Crate {
    let Ok(text) = std::str::from_utf8(text) else {
        return Crate::NoText;
    };
    match EAN13::new(text) {
        Ok(code) => Crate::Row(code.encode()),
        Err(Error::Length) => Crate::Length,
        Err(Error::Character) => Crate::Character,
        Err(Error::Checksum) => Crate::Checksum,
        Err(Error::Generate) => panic!("the crate gives Generate, which it does not give here"),
    }
}

/// The row and the debug output of a type, or the name of its error.
pub type Typed = Result<(Vec<u8>, String), String>;

/// Asks the crate's type.
pub fn typed(text: &str) -> Typed {
    match EAN13::new(text) {
        Ok(code) => Ok((code.encode(), format!("{code:?}"))),
        Err(error) => Err(format!("{error:?}")),
    }
}

/// The checks that the crate accepts after twelve ASCII digits.
pub fn checks(twelve: &[u8]) -> Vec<u8> {
    let accepted = |digit: &u8| matches!(ask(&[twelve, &[*digit]].concat()), Crate::Row(_));
    (b'0'..=b'9').filter(accepted).collect()
}
