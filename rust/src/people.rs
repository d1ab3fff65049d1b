//! What a Rust author expects of names and of the directory. Written by hand.

use crate::{Directory, Name, Player, Tail, Word};
use std::fmt;

impl Directory {
    /// The players, in the order in which each was first listed since the last logout of that name.
    ///
    /// ```
    /// let mut directory = fibs::Directory::new();
    /// if let fibs::Reading::Numbered(message) = fibs::read(b"5 ann - - 1 0 1500.05 0 3 1040515752 host client mail") {
    ///     directory.note(&message)?;
    /// }
    /// assert_eq!(directory.iter().map(|player| &player.name[..]).collect::<Vec<_>>(), [b"ann"]);
    /// # Ok::<(), fibs::DirectoryFault>(())
    /// ```
    pub fn iter(&self) -> impl Iterator<Item = &Player> {
        (0..self.len()).filter_map(|place| self.at(place))
    }
}

/// A rating, which is in hundredths wherever it is a number, as the server writes it.
///
/// ```
/// assert_eq!(fibs::rating_text(162_350), "1623.50");
/// ```
pub fn rating_text(hundredths: u32) -> String {
    format!("{}.{:02}", hundredths / 100, hundredths % 100)
}

impl Default for Directory {
    fn default() -> Directory {
        Directory::new()
    }
}

/// Texts of a line: their bytes, and how they are printed.
macro_rules! texts {
    ($($name:ident),*) => {
        $(impl AsRef<[u8]> for $name<'_> {
            fn as_ref(&self) -> &[u8] {
                self.bytes()
            }
        }

        impl fmt::Display for $name<'_> {
            /// Bytes that are not printable ASCII are escaped.
            fn fmt(&self, f: &mut fmt::Formatter<'_>) -> fmt::Result {
                self.bytes().escape_ascii().fmt(f)
            }
        })*
    };
}

texts!(Name, Tail, Word);
