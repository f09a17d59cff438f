//! The words of the command line.

use std::collections::BTreeMap;

/// What cases are about.
#[derive(Copy, Clone, PartialEq, Eq)]
pub enum What {
    Lists,
    Paths,
    Builds,
    Walks,
    Cascades,
    Files,
}

impl What {
    pub fn named(name: &str) -> Result<Self, String> {
        use What::*;
        let all = [Lists, Paths, Builds, Walks, Cascades, Files];
        let found = all.into_iter().find(|what| what.name() == name);
        found.ok_or_else(|| {
            let names = all.map(Self::name).join(", ");
            format!("`{name}` is none of {names}")
        })
    }

    pub fn name(self) -> &'static str {
        match self {
            Self::Lists => "lists",
            Self::Paths => "paths",
            Self::Builds => "builds",
            Self::Walks => "walks",
            Self::Cascades => "cascades",
            Self::Files => "files",
        }
    }
}

/// Options, each a name and a value.
pub struct Options<'a>(BTreeMap<&'a str, &'a str>);

impl<'a> Options<'a> {
    /// Each of the names has to be there once, and no other.
    pub fn read(words: &[&'a str], names: &[&str]) -> Result<Self, String> {
        Self::read_or(words, names, &[])
    }

    /// The same, with some more that may be there once.
    pub fn read_or(words: &[&'a str], names: &[&str], also: &[&str]) -> Result<Self, String> {
        let mut options = BTreeMap::new();
        for pair in words.chunks(2) {
            let name = pair[0];
            if !names.contains(&name) && !also.contains(&name) {
                return Err(format!(
                    "`{name}` is not an option here; see `judge --help`"
                ));
            }
            let Some(&value) = pair.get(1) else {
                return Err(format!("`{name}` needs a value"));
            };
            if options.insert(name, value).is_some() {
                return Err(format!("`{name}` is given twice"));
            }
        }
        match names.iter().find(|name| !options.contains_key(*name)) {
            Some(missing) => Err(format!("`{missing}` is missing; see `judge --help`")),
            None => Ok(Self(options)),
        }
    }

    pub fn text(&self, name: &str) -> Result<&'a str, String> {
        let value = self.0.get(name).copied();
        value.ok_or_else(|| format!("`{name}` is missing"))
    }

    fn number<T: std::str::FromStr>(&self, name: &str) -> Result<T, String> {
        let value = self.text(name)?;
        let number = value.parse();
        number.map_err(|_| format!("`{name}` needs a number, not `{value}`"))
    }

    pub fn seed(&self) -> Result<u64, String> {
        self.number("--seed")
    }

    pub fn count(&self) -> Result<usize, String> {
        self.number("--count")
    }
}
