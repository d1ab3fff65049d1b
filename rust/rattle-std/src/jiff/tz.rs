//! Time zones: tables of the Time Zone Database, and the rules that `TZ` may tell, as in `EST5EDT,M3.2.0,M11.1.0`.

use super::{Civil, Error, Timestamp};
use crate::HostRuntime;
use crate::alloc::AllocError;
use crate::env::{VarError, var};
use crate::may::*;
use std::io::{ErrorKind, Read};

mod rule;
mod table;

use rule::Rule;
use table::Table;

/// What stands before the name of a zone in the path of its file.
const IN_PATH: &str = "zoneinfo/";

/// The longest file that is read as a time zone.
const MOST_BYTES: u64 = 1 << 20;

/// How far a place is ahead of UTC at each time.
#[derive(Clone, Copy)]
pub struct TimeZone<'a> {
    kind: Kind<'a>,
}

#[derive(Clone, Copy)]
enum Kind<'a> {
    Utc,
    Rule(Rule),
    Table(&'a Table),
    #[cfg(not(unix))]
    Local,
}

impl TimeZone<'_> {
    /// The zone whose clock shows UTC.
    pub const UTC: Self = TimeZone { kind: Kind::Utc };

    /// What the clock of the place shows.
    pub fn to_datetime(&self, time: Timestamp) -> Civil {
        let ahead = match self.kind {
            Kind::Utc => 0,
            Kind::Rule(rule) => rule.ahead_at(time.second()),
            Kind::Table(table) => table.ahead_at(time.second()),
            #[cfg(not(unix))]
            Kind::Local => time.local_ahead(),
        };
        time.shown(ahead)
    }
}

/// Time zones by name. Capital letters are as small ones.
#[derive(Default)]
pub struct TimeZoneDatabase {
    zones: Vec<(String, Table)>,
}

impl TimeZoneDatabase {
    /// It has `UTC` and `Etc/Unknown` alone.
    pub fn new() -> TimeZoneDatabase {
        TimeZoneDatabase::default()
    }

    /// Adds the zone of a name, in place of any of that name: the bytes are those of its file.
    pub fn insert(&mut self, name: &str, bytes: &[u8]) -> Result<(), Error> {
        let table = Table::parse(bytes)?;
        let name = String::may_from_str(name)?;
        self.zones.retain(|(other, _)| !other.eq_ignore_ascii_case(&name));
        self.zones.may_push((name, table))?;
        Ok(())
    }

    /// The zone of a name, if it is there.
    fn get(&self, name: &str) -> Option<TimeZone<'_>> {
        let found = self.zones.iter().find(|(other, _)| other.eq_ignore_ascii_case(name));
        match found {
            Some((_, table)) => Some(TimeZone { kind: Kind::Table(table) }),
            None if name.eq_ignore_ascii_case("UTC") || name.eq_ignore_ascii_case("Etc/Unknown") => Some(TimeZone::UTC),
            None => None,
        }
    }
}

/// What names the time zone of the system: `TZ`, or else `/etc/localtime`.
pub struct SystemTimeZone {
    named: Named,
}

enum Named {
    Utc,
    Rule(Rule),
    /// The names that are looked up, the first that is there, and else the table of the file.
    Names {
        names: [Option<String>; 2],
        file: Option<Table>,
    },
    #[cfg(not(unix))]
    Local,
}

/// What follows the last `zoneinfo/` of a path.
fn name_in_path(path: &str) -> Option<&str> {
    path.rfind(IN_PATH).map(|at| &path[at + IN_PATH.len()..])
}

/// The name to which a link leads, if the path is one to the file of a zone.
fn linked_name(path: &str) -> Result<Option<String>, AllocError> {
    let target = std::fs::read_link(path).ok();
    match target.as_deref().and_then(std::path::Path::to_str).and_then(name_in_path) {
        Some(name) => Ok(Some(String::may_from_str(name)?)),
        None => Ok(None),
    }
}

/// The table of a file.
fn table_of(path: &str) -> Result<Table, Error> {
    // a pipe or a device might never end
    if !std::fs::metadata(path)?.is_file() {
        return Err(Error::Io(ErrorKind::InvalidInput));
    }
    let mut bytes = Vec::new();
    std::fs::File::open(path)?.take(MOST_BYTES).read_to_end(&mut bytes)?;
    Table::parse(&bytes)
}

/// The table of a file, if it is one; an error if memory runs out.
fn table_if_any(path: &str) -> Result<Option<Table>, Error> {
    match table_of(path) {
        Ok(table) => Ok(Some(table)),
        Err(Error::OutOfMemory) => Err(Error::OutOfMemory),
        Err(_) => Ok(None),
    }
}

impl SystemTimeZone {
    /// That of this process.
    pub fn read(rt: &HostRuntime) -> Result<SystemTimeZone, Error> {
        let named = match var(rt, "TZ") {
            Ok(tz) => named_by(&tz)?,
            #[cfg(unix)]
            Err(VarError::NotPresent) => named_by_file("/etc/localtime")?,
            #[cfg(not(unix))]
            Err(VarError::NotPresent) => Named::Local,
            Err(VarError::NotUnicode) => return Err(Error::Io(ErrorKind::InvalidData)),
            Err(VarError::OutOfMemory) => return Err(Error::OutOfMemory),
        };
        Ok(SystemTimeZone { named })
    }

    /// The zone that it names. A name that is not there has the file of its path.
    pub fn time_zone<'a>(&'a self, zones: &'a TimeZoneDatabase) -> Result<TimeZone<'a>, Error> {
        match &self.named {
            Named::Utc => Ok(TimeZone::UTC),
            Named::Rule(rule) => Ok(TimeZone { kind: Kind::Rule(*rule) }),
            Named::Names { names, file } => {
                let named = names.iter().flatten().find_map(|name| zones.get(name));
                let of_file = || file.as_ref().map(|table| TimeZone { kind: Kind::Table(table) });
                named.or_else(of_file).ok_or(Error::Zone)
            }
            #[cfg(not(unix))]
            Named::Local => Ok(TimeZone { kind: Kind::Local }),
        }
    }
}

/// What a value of `TZ` names: a rule, or else a name or a path, before which `:` may stand.
fn named_by(tz: &str) -> Result<Named, Error> {
    if tz.is_empty() {
        return Ok(Named::Utc);
    }
    if let Some(rule) = Rule::parse(tz.as_bytes()) {
        return Ok(Named::Rule(rule));
    }
    let path = tz.strip_prefix(':').unwrap_or(tz);
    let name = match name_in_path(path) {
        Some(name) => name,
        None if path.starts_with('/') => return named_by_file(path),
        None => path,
    };
    Ok(Named::Names { names: [Some(String::may_from_str(name)?), linked_name(path)?], file: table_if_any(path)? })
}

/// What a file names: the zone to which it is a link, or the table that it has.
fn named_by_file(path: &str) -> Result<Named, Error> {
    match linked_name(path)? {
        Some(name) => Ok(Named::Names { names: [Some(name), None], file: table_if_any(path)? }),
        None => Ok(Named::Names { names: [None, None], file: Some(table_of(path)?) }),
    }
}

#[cfg(test)]
mod tests {
    use super::*;

    #[test]
    fn a_name_has_the_zone_that_was_added_last() {
        let file = |rule: &str| {
            let block = [&[b'T', b'Z', b'i', b'f', b'2'][..], &[0; 31], &[0, 0, 0, 1], &[0; 4]].concat();
            [&block[..], &[0; 6], &block, &[0; 6], format!("\n{rule}\n").as_bytes()].concat()
        };
        let mut zones = TimeZoneDatabase::new();
        assert_eq!(zones.insert("One/Two", b"TZif"), Err(Error::Zone));
        assert!(zones.get("One/Two").is_none());
        zones.insert("One/Two", &file("AAA-1")).unwrap();
        zones.insert("one/two", &file("BBB-2")).unwrap();
        let noon = Timestamp::from_second(12 * 3600).unwrap();
        assert_eq!(zones.get("ONE/TWO").unwrap().to_datetime(noon).hour(), 14);
        assert_eq!(zones.get("utc").unwrap().to_datetime(noon).hour(), 12);
        assert_eq!(zones.zones.len(), 1);
    }
}
