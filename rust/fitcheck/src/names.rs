//! Names of types and groups, for sentences.

use std::collections::BTreeMap;
use std::error::Error;
use std::fmt;

/// What types and groups are called. Without a name, sentences give the id.
///
/// The text has a line for each name: the type id, then the name; for a group
/// the word `group`, its id, then the name. Empty lines and lines that begin
/// with `#` are passed over.
///
/// ```
/// use fitcheck::Names;
///
/// let names = Names::parse("# types\n587 Rifter\n2048\tDamage Control II\ngroup 25 Frigate\n")?;
/// assert_eq!(names.type_name(2048), Some("Damage Control II"));
/// assert_eq!(names.group_name(25), Some("Frigate"));
/// assert_eq!(names.type_name(25), None);
///
/// let wrong = Names::parse("587 Rifter\nRifter 587\n").unwrap_err();
/// assert_eq!(wrong.to_string(), "line 2: not an id and a name");
/// # Ok::<(), fitcheck::NamesError>(())
/// ```
///
/// They may also come from memory, and be written as such a text:
///
/// ```
/// use fitcheck::Names;
///
/// let mut names = Names::new();
/// names.name_type(587, "Rifter").name_group(25, "Frigate");
/// assert_eq!(names.to_string(), "587 Rifter\ngroup 25 Frigate\n");
/// assert_eq!(Names::parse(&names.to_string()), Ok(names));
/// ```
#[derive(Debug, Clone, Default, PartialEq, Eq)]
pub struct Names {
    types: BTreeMap<i32, String>,
    groups: BTreeMap<i32, String>,
}

/// What is wrong with a text of names.
#[derive(Debug, Clone, PartialEq, Eq)]
pub struct NamesError {
    /// The line, from 1.
    pub line: usize,
    what: String,
}

impl fmt::Display for NamesError {
    fn fmt(&self, formatter: &mut fmt::Formatter<'_>) -> fmt::Result {
        write!(formatter, "line {}: {}", self.line, self.what)
    }
}

impl Error for NamesError {}

/// A line for each name, as [`Names::parse`] reads them: types, then groups,
/// each by ascending id.
impl fmt::Display for Names {
    fn fmt(&self, formatter: &mut fmt::Formatter<'_>) -> fmt::Result {
        for (type_id, name) in &self.types {
            writeln!(formatter, "{type_id} {name}")?;
        }
        for (group_id, name) in &self.groups {
            writeln!(formatter, "group {group_id} {name}")?;
        }
        Ok(())
    }
}

impl Names {
    /// No names.
    pub fn new() -> Names {
        Names::default()
    }

    /// Says what a type is called. A later name takes the place of an earlier
    /// one; control characters become spaces and those at the ends are taken
    /// away, and a name of nothing else is none.
    pub fn name_type(&mut self, type_id: i32, name: &str) -> &mut Self {
        put(&mut self.types, type_id, name);
        self
    }

    /// Says what a group is called; see [`Names::name_type`].
    pub fn name_group(&mut self, group_id: i32, name: &str) -> &mut Self {
        put(&mut self.groups, group_id, name);
        self
    }

    /// The names of a text.
    ///
    /// # Errors
    ///
    /// The first line that has no id and name, has control characters in the
    /// name, or names something a second time.
    pub fn parse(text: &str) -> Result<Names, NamesError> {
        let text = text.strip_prefix('\u{FEFF}').unwrap_or(text);
        let mut names = Names::default();
        for (number, line) in text.lines().enumerate() {
            let line = line.trim();
            if !line.is_empty() && !line.starts_with('#') {
                names.add(line).map_err(|what| NamesError {
                    line: number + 1,
                    what,
                })?;
            }
        }
        Ok(names)
    }

    fn add(&mut self, line: &str) -> Result<(), String> {
        let malformed = || "not an id and a name".to_string();
        let (first, rest) = word(line).ok_or_else(malformed)?;
        let (kind, table, id, name) = if first == "group" {
            let (id, name) = word(rest).ok_or_else(malformed)?;
            ("group", &mut self.groups, id, name)
        } else {
            ("type", &mut self.types, first, rest)
        };
        let id: i32 = id.parse().map_err(|_| malformed())?;
        if name.chars().any(char::is_control) {
            return Err("a control character in the name".to_string());
        }
        match table.insert(id, name.to_string()) {
            Some(_) => Err(format!("{kind} {id} has a name already")),
            None => Ok(()),
        }
    }

    /// The name of a type, if it has one here.
    pub fn type_name(&self, type_id: i32) -> Option<&str> {
        self.types.get(&type_id).map(String::as_str)
    }

    /// The groups that are called so.
    pub(crate) fn groups_called(&self, name: &str) -> Vec<i32> {
        let called = self.groups.iter().filter(|(_, known)| *known == name);
        called.map(|(group_id, _)| *group_id).collect()
    }

    /// The name of a group, if it has one here.
    pub fn group_name(&self, group_id: i32) -> Option<&str> {
        self.groups.get(&group_id).map(String::as_str)
    }
}

fn put(table: &mut BTreeMap<i32, String>, id: i32, name: &str) {
    let name = name.replace(char::is_control, " ");
    match name.trim() {
        "" => table.remove(&id),
        name => table.insert(id, name.to_string()),
    };
}

/// The first word and what follows the space behind it.
fn word(line: &str) -> Option<(&str, &str)> {
    let (first, rest) = line.split_once(char::is_whitespace)?;
    Some((first, rest.trim_start()))
}

#[cfg(test)]
mod tests {
    use super::*;

    #[test]
    fn lines_may_end_and_begin_as_editors_leave_them() {
        let names = Names::parse("\u{FEFF}587 Rifter\r\n\r\n  -3\t 'Sansha' Ægir \r\n").unwrap();
        assert_eq!(names.type_name(587), Some("Rifter"));
        assert_eq!(names.type_name(-3), Some("'Sansha' Ægir"));
    }

    #[test]
    fn names_from_memory_stay_on_their_line() {
        let mut names = Names::new();
        names
            .name_type(5, " a\u{1B}b\nc ")
            .name_type(6, "first")
            .name_type(6, "second")
            .name_type(7, "gone")
            .name_type(7, "\n")
            .name_group(5, "g");
        assert_eq!(names.to_string(), "5 a b c\n6 second\ngroup 5 g\n");
    }

    #[test]
    fn wrong_lines_are_named() {
        let wrong = |text: &str| Names::parse(text).unwrap_err().to_string();
        assert_eq!(wrong("587"), "line 1: not an id and a name");
        assert_eq!(wrong("\n99999999999 Big"), "line 2: not an id and a name");
        assert_eq!(wrong("group Frigate"), "line 1: not an id and a name");
        assert_eq!(wrong("group x Frigate"), "line 1: not an id and a name");
        assert_eq!(wrong("5 a\n5 b"), "line 2: type 5 has a name already");
        assert_eq!(
            wrong("group 5 a\ngroup 5 b"),
            "line 2: group 5 has a name already"
        );
        assert_eq!(
            wrong("5 a\u{1B}[31m"),
            "line 1: a control character in the name"
        );
    }
}
