//! The command line's words.

use std::ffi::OsString;
use std::path::PathBuf;

use fitcheck::{Limits, MOST_TRIES, Reader};

use crate::files::Source;

pub const USAGE: &str = "\
Usage: fitcheck explain CATALOGUE FIT --as READER [--why] [--fix [--budget N]]
                        [--names FILE] [--profile FILE --allowance N]
                        [--pairs N] [--skills N] [--json]
       fitcheck hall CATALOGUE FOLDER [--json]
       fitcheck pack FIT.txt [--types FILE] [--out FOLDER]
       fitcheck profile WORDS NEW [--names FILE]
       fitcheck train CATALOGUE FIT --result N [--steps N] [-o FILE] [--names FILE] [--json]
       fitcheck trim CATALOGUE FIT [-o FILE] [--json]
       fitcheck widen OLD NEW
       fitcheck --help | --version";

pub const HELP: &str = "\
Says which fitting rules of EVE Online a fit breaks.

Usage: fitcheck explain CATALOGUE FIT --as READER [--why] [--fix [--budget N]]
                        [--names FILE] [--profile FILE --allowance N]
                        [--pairs N] [--skills N] [--json]
       fitcheck hall CATALOGUE FOLDER [--json]
       fitcheck pack FIT.txt [--types FILE] [--out FOLDER]
       fitcheck profile WORDS NEW [--names FILE]
       fitcheck train CATALOGUE FIT --result N [--steps N] [-o FILE] [--names FILE] [--json]
       fitcheck trim CATALOGUE FIT [-o FILE] [--json]
       fitcheck widen OLD NEW
       fitcheck --help | --version

explain  One fit: every rule that it breaks, in a sentence each, and the skills
         that the ship, the character and each item want and the character
         lacks. What repeats is said once. Items without a result are said too,
         as no rule looks at them, and so are results without an item: a fit
         that has some is not clear. It is said to a reader, whom --as names.
hall     Every file of a folder, in the order of the names' bytes: clear,
         faulted with the number of entries and what was not checked, or
         refused with the reason; then the three numbers. A file that cannot be
         read is said and passed over, as are folders in it and names that
         begin with a dot.
pack     A fit in words, as docs/CALLING.md describes them, made into the
         images FIT.bin and types.bin, with names.txt beside them.
profile  A league's profile in words, `ban GROUP` and `price POINTS GROUP` on a line
         each, made into the image NEW. A group is its id, or the name that
         --names gives it.
train    A plan, tried before it is trained: which levels the ship, the character
         or an item lacks, skill by skill, each before those that it demands, and
         with -o the fit that training leads to. What it says is the pilot's and the
         officers' business, and not for guests.
trim     The part of a catalogue that one fit touches, for a page that fetches no
         more: how many bytes it takes and how many are saved, and with -o the
         catalogue itself. Under it that fit is judged as under the whole one;
         another fit may not be.
widen    An old catalogue, whose base values are f32, made into the file NEW in
         the form that the other commands read.

CATALOGUE, FIT and OLD are images; one of them may be -, standard input. A catalogue
that lacks names or effects leaves rules unchecked: which, a warning says. NEW and
the FILE of -o are written, and are no file that is read, nor -.

--as READER   Who reads what explain says: guest, pilot or officer. Skills are
              private: a guest is told neither which are lacking nor which
              listed ones are none, and so never that a fit is clear. Pilots and
              officers are told everything. It has to be named.
--why         With --as officer, and without a league: below each entry the items
              that show it, and of these none that it could do without: leave out
              one or more, and it is gone. Others may show it too, or fewer.
--fix         With --as officer: behind all else, a few items to take off, so that no
              slot or part of the ship is listed as taken twice, no limit of a group
              or type as passed, and no rack as too full; and whether fewer might be
              enough. What else the fit breaks may stay.
--budget N    With --fix: so many tries at most, each of one set of items; else 65,552,
              more than which no fit has.
--names FILE  What types and groups are called: a line `2048 Damage Control II`
              for a type, `group 60 Damage Control` for a group; empty lines
              and lines that begin with # are passed over.
--profile FILE  The image of a league's profile: what it bans and what it prices.
--allowance N   How many points the league allows, with --profile.
--pairs N     A page that takes so many items with a result; a fit that has
              more is refused by 13. Else the main page, which takes 256.
--skills N    A page that takes so many wanted skills of a result; one that
              wants more is refused by 13, in its place among the skills. Else
              the main page, which takes 512.
--result N    What is trained for: 0 is the ship, 1 the character, 2 the first
              item, and so on. It has to be named.
--steps N     So many levels, from the first on; else all that are missing.
-o FILE       Where the trained fit or the trimmed catalogue goes; else it is not
              written.
--types FILE  The catalogue in words; else types.txt beside FIT.txt or one
              folder above it.
--out FOLDER  Where the images go; else beside FIT.txt.
--json        One JSON object on a line, for other programs. Numbers that JSON
              does not have are the strings \"NaN\", \"Infinity\" and
              \"-Infinity\".
--            Everything behind it is a path.

Status: 0  explain: the fit is clear, which is that no rule is broken and all
           of it was checked (skills may be lacking); for a guest, that nothing
           is listed and all of it was checked;
           hall: all files counted, whatever the numbers;
           pack, profile, widen: written; train, trim: said, and written with -o
        1  refused, or a file cannot be read or written
        2  wrong usage
        3  explain: the fit is faulted
";

#[derive(Debug, PartialEq)]
pub enum Command {
    Help,
    Version,
    Explain(Explain),
    Hall(Hall),
    Pack(Pack),
    Profile(Profile),
    Train(Train),
    Trim(Trim),
    Widen(Widen),
}

#[derive(Debug, PartialEq)]
pub struct Explain {
    pub catalogue: Source,
    pub fit: Source,
    pub reader: Reader,
    pub names: Option<PathBuf>,
    /// A league's profile and what it allows.
    pub league: Option<(PathBuf, u32)>,
    /// How much the page takes.
    pub limits: Limits,
    /// Whether it says which items make each entry.
    pub why: bool,
    /// Within how many tries it says what to take off, if it does.
    pub fix: Option<u32>,
    pub json: bool,
}

#[derive(Debug, PartialEq)]
pub struct Hall {
    pub catalogue: Source,
    pub folder: PathBuf,
    pub json: bool,
}

#[derive(Debug, PartialEq)]
pub struct Pack {
    pub fit: PathBuf,
    pub types: Option<PathBuf>,
    pub out: Option<PathBuf>,
}

#[derive(Debug, PartialEq)]
pub struct Profile {
    pub words: PathBuf,
    pub new: PathBuf,
    pub names: Option<PathBuf>,
}

#[derive(Debug, PartialEq)]
pub struct Train {
    pub catalogue: Source,
    pub fit: Source,
    pub result: u32,
    /// All that are missing, where none are named.
    pub steps: Option<u32>,
    pub new: Option<PathBuf>,
    pub names: Option<PathBuf>,
    pub json: bool,
}

#[derive(Debug, PartialEq)]
pub struct Trim {
    pub catalogue: Source,
    pub fit: Source,
    pub new: Option<PathBuf>,
    pub json: bool,
}

#[derive(Debug, PartialEq)]
pub struct Widen {
    pub old: Source,
    pub new: PathBuf,
}

/// The words of a command line, sorted out.
#[derive(Default)]
struct Words {
    /// What stands for itself, and whether it stands behind `--`.
    plain: Vec<(OsString, bool)>,
    /// Options that have a value.
    values: Vec<(&'static str, OsString)>,
    json: bool,
    why: bool,
    fix: bool,
    help: bool,
    version: bool,
}

/// Options that have none.
const FLAGS: [&str; 5] = ["--help", "--version", "--json", "--why", "--fix"];

/// Options that have a value, and what it is.
const VALUED: [(&str, &str); 12] = [
    ("--as", "reader"),
    ("--names", "file"),
    ("--types", "file"),
    ("--out", "folder"),
    ("--profile", "file"),
    ("--allowance", "number"),
    ("--pairs", "number"),
    ("--skills", "number"),
    ("--result", "number"),
    ("--steps", "number"),
    ("--budget", "number"),
    ("-o", "file"),
];

impl Words {
    fn sorted(line: impl IntoIterator<Item = OsString>) -> Result<Words, String> {
        let mut words = Words::default();
        let mut line = line.into_iter();
        let mut is_path = false;
        while let Some(word) = line.next() {
            match word.to_str().filter(|_| !is_path).unwrap_or("") {
                "--help" | "-h" => words.help = true,
                "--version" | "-V" => words.version = true,
                "--json" => words.json = true,
                "--why" => words.why = true,
                "--fix" => words.fix = true,
                "--" => is_path = true,
                text if text.len() > 1 && text.starts_with('-') => {
                    let (name, value) = match text.split_once('=') {
                        Some((name, value)) => (name, Some(value.into())),
                        None => (text, None),
                    };
                    words.valued(name, value, &mut line)?;
                }
                _ => words.plain.push((word, is_path)),
            }
        }
        Ok(words)
    }

    /// Takes an option that has a value: behind `=`, or else the next word.
    fn valued(
        &mut self,
        name: &str,
        value: Option<OsString>,
        line: &mut impl Iterator<Item = OsString>,
    ) -> Result<(), String> {
        let known = VALUED.iter().find(|known| known.0 == name);
        let Some((name, what)) = known else {
            return Err(match FLAGS.contains(&name) {
                true => format!("{name} takes no value"),
                false => format!("there is no option {name}"),
            });
        };
        if self.values.iter().any(|value| value.0 == *name) {
            return Err(format!("{name} stands twice"));
        }
        let value = value.or_else(|| line.next()).filter(|it| !it.is_empty());
        let value = value.ok_or_else(|| format!("{name} wants a {what}"))?;
        self.values.push((name, value));
        Ok(())
    }

    /// The value of an option, taken out.
    fn value(&mut self, name: &str) -> Option<PathBuf> {
        let at = self.values.iter().position(|value| value.0 == name)?;
        Some(self.values.remove(at).1.into())
    }
}

/// What is asked, or what is wrong with how it is asked.
pub fn parse(line: impl IntoIterator<Item = OsString>) -> Result<Command, String> {
    let mut words = Words::sorted(line)?;
    if words.help {
        return Ok(Command::Help);
    }
    if words.version {
        return Ok(Command::Version);
    }
    let mut plain = std::mem::take(&mut words.plain).into_iter();
    let Some((command, _)) = plain.next() else {
        return Err("nothing is asked".to_string());
    };
    let shown = command.display();
    let mut next = |what: &str| {
        let word = plain.next().filter(|word| !word.0.is_empty());
        word.ok_or_else(|| format!("{shown} wants a {what}"))
    };
    let asked = match command.to_str() {
        Some("help") => return Ok(Command::Help),
        Some("explain") => explain(&mut words, &mut next)?,
        Some("hall") => Command::Hall(Hall {
            catalogue: source(next("CATALOGUE")?),
            folder: next("FOLDER")?.0.into(),
            json: std::mem::take(&mut words.json),
        }),
        Some("pack") => Command::Pack(Pack {
            fit: next("FIT.txt")?.0.into(),
            types: words.value("--types"),
            out: words.value("--out"),
        }),
        Some("profile") => Command::Profile(Profile {
            words: next("WORDS")?.0.into(),
            new: written(next("NEW")?)?,
            names: words.value("--names"),
        }),
        Some("train") => train(&mut words, &mut next)?,
        Some("trim") => {
            let (catalogue, fit) = images(&mut next)?;
            Command::Trim(Trim {
                catalogue,
                fit,
                new: new_file(&mut words)?,
                json: std::mem::take(&mut words.json),
            })
        }
        Some("widen") => Command::Widen(Widen {
            old: source(next("OLD")?),
            new: written(next("NEW")?)?,
        }),
        _ => return Err(format!("there is no command {shown}")),
    };
    let unused = words.values.first().map(|value| value.0);
    let unused = unused.or(words.json.then_some("--json"));
    let unused = unused.or(words.why.then_some("--why"));
    match (unused.or(words.fix.then_some("--fix")), plain.next()) {
        (Some(option), _) => Err(format!("{shown} takes no {option}")),
        (None, Some((more, _))) => Err(format!("{} is one word too many", more.display())),
        (None, None) => Ok(asked),
    }
}

/// Two images, of which one at most is standard input.
fn images(
    next: &mut impl FnMut(&str) -> Result<(OsString, bool), String>,
) -> Result<(Source, Source), String> {
    let (catalogue, fit) = (source(next("CATALOGUE")?), source(next("FIT")?));
    match (&catalogue, &fit) {
        (Source::StandardInput, Source::StandardInput) => {
            Err("standard input is one image, not both".to_string())
        }
        _ => Ok((catalogue, fit)),
    }
}

/// What is trained for has to be named: no result is more likely than another.
fn train(
    words: &mut Words,
    next: &mut impl FnMut(&str) -> Result<(OsString, bool), String>,
) -> Result<Command, String> {
    let (catalogue, fit) = images(next)?;
    let Some(result) = named_number(words, "--result")? else {
        return Err(
            "train wants --result and what it is for: 0 the ship, 1 the character, 2 the first \
             item"
                .to_string(),
        );
    };
    let new = new_file(words)?;
    Ok(Command::Train(Train {
        catalogue,
        fit,
        result,
        steps: named_number(words, "--steps")?,
        new,
        names: words.value("--names"),
        json: std::mem::take(&mut words.json),
    }))
}

/// A fit that is explained to somebody.
fn explain(
    words: &mut Words,
    next: &mut impl FnMut(&str) -> Result<(OsString, bool), String>,
) -> Result<Command, String> {
    let (catalogue, fit) = images(next)?;
    let asked = Explain {
        catalogue,
        fit,
        reader: reader(words)?,
        names: words.value("--names"),
        league: league(words)?,
        limits: limits(words)?,
        why: std::mem::take(&mut words.why),
        fix: fix(words)?,
        json: std::mem::take(&mut words.json),
    };
    match (asked.why, asked.reader, &asked.league) {
        (true, Reader::Guest | Reader::Pilot, _) => {
            Err("--why is an officer's: it wants --as officer".to_string())
        }
        (true, _, Some(_)) => {
            Err("--why is about the list without a league, so it takes no --profile".to_string())
        }
        _ if asked.fix.is_some() && asked.reader != Reader::Officer => {
            Err("--fix is an officer's: it wants --as officer".to_string())
        }
        _ => Ok(Command::Explain(asked)),
    }
}

/// Within how many tries it is said what to take off.
fn fix(words: &mut Words) -> Result<Option<u32>, String> {
    match (
        std::mem::take(&mut words.fix),
        named_number(words, "--budget")?,
    ) {
        (true, budget) => Ok(Some(budget.unwrap_or(MOST_TRIES))),
        (false, None) => Ok(None),
        (false, Some(_)) => {
            Err("--budget is of tries to find a fix, so it wants --fix".to_string())
        }
    }
}

/// Who reads it. Nobody is taken for granted: what is right for one reader says
/// too much to another, or too little.
fn reader(words: &mut Words) -> Result<Reader, String> {
    const READERS: &str = "guest, pilot or officer";
    let Some(named) = words.value("--as") else {
        return Err(format!("explain wants --as and who reads it: {READERS}"));
    };
    let reader = named.to_str().and_then(Reader::from_name);
    reader.ok_or_else(|| format!("--as {} is no {READERS}", named.display()))
}

/// A profile and its allowance. Either alone is a slip: without an allowance
/// nothing says how many points are too many.
fn league(words: &mut Words) -> Result<Option<(PathBuf, u32)>, String> {
    let (profile, allowance) = (words.value("--profile"), words.value("--allowance"));
    match (profile, allowance) {
        (None, None) => Ok(None),
        (Some(_), None) => Err("--profile wants --allowance beside it".to_string()),
        (None, Some(_)) => Err("--allowance wants --profile beside it".to_string()),
        (Some(profile), Some(allowance)) => {
            let number = number("--allowance", allowance)?;
            Ok(Some((profile, number)))
        }
    }
}

/// The main page's limits, but for those that are named.
fn limits(words: &mut Words) -> Result<Limits, String> {
    let mut limits = Limits::main();
    if let Some(most) = named_number(words, "--pairs")? {
        limits = limits.pairs(most);
    }
    if let Some(most) = named_number(words, "--skills")? {
        limits = limits.skills(most);
    }
    Ok(limits)
}

/// The number behind an option, where it is named.
fn named_number(words: &mut Words, option: &str) -> Result<Option<u32>, String> {
    let value = words.value(option);
    value.map(|value| number(option, value)).transpose()
}

/// The number that is an option's value.
fn number(option: &str, value: PathBuf) -> Result<u32, String> {
    let number = value.to_str().and_then(|word| word.parse().ok());
    number.ok_or_else(|| {
        let shown = value.display();
        format!("{option} {shown} is no whole number up to {}", u32::MAX)
    })
}

/// A path, or `-` for standard input where it does not stand behind `--`.
fn source((word, is_path): (OsString, bool)) -> Source {
    match word == "-" && !is_path {
        true => Source::StandardInput,
        false => Source::File(word.into()),
    }
}

/// A path that is written to. `-` is none where it does not stand behind `--`: what
/// is said goes to standard output, and no image beside it.
fn written((word, is_path): (OsString, bool)) -> Result<PathBuf, String> {
    match word == "-" && !is_path {
        true => Err("- is no file to write: standard output has what is said".to_string()),
        false => Ok(word.into()),
    }
}

/// The file that `-o` names, where it stands.
fn new_file(words: &mut Words) -> Result<Option<PathBuf>, String> {
    let new = words.value("-o");
    new.map(|new| written((new.into_os_string(), false)))
        .transpose()
}

#[cfg(test)]
mod tests {
    use super::*;

    fn parsed(line: &str) -> Result<Command, String> {
        parse(line.split_whitespace().map(OsString::from))
    }

    fn file(path: &str) -> Source {
        Source::File(path.into())
    }

    #[test]
    fn options_may_stand_anywhere() {
        let expected = Command::Explain(Explain {
            catalogue: file("c"),
            fit: file("f"),
            reader: Reader::Officer,
            names: Some("n".into()),
            league: None,
            limits: Limits::main(),
            why: false,
            fix: None,
            json: true,
        });
        for line in [
            "explain c f --names n --json --as officer",
            "--json explain --names=n c f --as officer",
            "explain c --as=officer --json --names n -- f",
        ] {
            assert_eq!(parsed(line).as_ref(), Ok(&expected), "{line}");
        }
        let dashed = Command::Hall(Hall {
            catalogue: file("-"),
            folder: "--json".into(),
            json: false,
        });
        assert_eq!(parsed("hall -- - --json"), Ok(dashed));
        let packed = Command::Pack(Pack {
            fit: "f.txt".into(),
            types: Some("t".into()),
            out: Some("o".into()),
        });
        assert_eq!(parsed("pack --out o f.txt --types=t"), Ok(packed));
        let priced = Command::Explain(Explain {
            catalogue: file("c"),
            fit: file("f"),
            reader: Reader::Officer,
            names: None,
            league: Some(("p".into(), 120)),
            limits: Limits::main(),
            why: false,
            fix: None,
            json: false,
        });
        for line in [
            "explain c f --profile p --allowance 120 --as officer",
            "--allowance=120 explain --profile=p c f --as officer",
        ] {
            assert_eq!(parsed(line).as_ref(), Ok(&priced), "{line}");
        }
        let profile = Command::Profile(Profile {
            words: "w".into(),
            new: "n".into(),
            names: Some("g".into()),
        });
        assert_eq!(parsed("profile w n --names g"), Ok(profile));
        let widened = Command::Widen(Widen {
            old: file("old"),
            new: "-new".into(),
        });
        assert_eq!(parsed("widen old -- -new"), Ok(widened));
        let to_dash = Command::Widen(Widen {
            old: file("old"),
            new: "-".into(),
        });
        assert_eq!(parsed("widen old -- -"), Ok(to_dash));
    }

    #[test]
    fn a_training_names_its_result() {
        let trained = |steps: Option<u32>, new: Option<&str>| {
            Command::Train(Train {
                catalogue: file("c"),
                fit: file("f"),
                result: 2,
                steps,
                new: new.map(PathBuf::from),
                names: None,
                json: false,
            })
        };
        for (line, expected) in [
            ("train c f --result 2", trained(None, None)),
            ("train c f --result=2 --steps 0", trained(Some(0), None)),
            ("train c f -o n --result 2", trained(None, Some("n"))),
            (
                "train -o=n --steps=4294967295 c f --result 2",
                trained(Some(u32::MAX), Some("n")),
            ),
        ] {
            assert_eq!(parsed(line), Ok(expected), "{line}");
        }
    }

    #[test]
    fn why_is_asked_by_an_officer() {
        for line in [
            "explain c f --as officer --why",
            "--why explain c --as=officer f --pairs 9",
        ] {
            let Ok(Command::Explain(asked)) = parsed(line) else {
                panic!("{line}");
            };
            assert!(asked.why && !asked.json, "{line}");
        }
        let path = "explain c --as officer -- --why";
        assert!(matches!(parsed(path), Ok(Command::Explain(asked)) if !asked.why));
    }

    #[test]
    fn a_fix_has_all_tries_where_none_are_named() {
        let most = Some(MOST_TRIES);
        for (line, fix, why) in [
            ("explain c f --as officer --fix", most, false),
            ("explain --fix c f --as officer --why", most, true),
            ("explain c f --as officer --fix --budget 0", Some(0), false),
            (
                "explain c f --budget=4294967295 --as officer --fix",
                Some(u32::MAX),
                false,
            ),
            ("explain c f --as guest", None, false),
        ] {
            let Ok(Command::Explain(asked)) = parsed(line) else {
                panic!("{line}");
            };
            assert_eq!((asked.fix, asked.why), (fix, why), "{line}");
        }
    }

    #[test]
    fn a_trim_is_written_where_a_file_is_named() {
        let trimmed = |new: Option<&str>, json: bool| {
            Command::Trim(Trim {
                catalogue: file("c"),
                fit: Source::StandardInput,
                new: new.map(PathBuf::from),
                json,
            })
        };
        for (line, expected) in [
            ("trim c -", trimmed(None, false)),
            ("trim c - -o n", trimmed(Some("n"), false)),
            ("trim --json -o=n c -", trimmed(Some("n"), true)),
        ] {
            assert_eq!(parsed(line), Ok(expected), "{line}");
        }
    }

    #[test]
    fn a_limit_that_is_not_named_is_the_main_pages() {
        let under = |limits: Limits| {
            Command::Explain(Explain {
                catalogue: file("c"),
                fit: file("f"),
                reader: Reader::Officer,
                names: None,
                league: None,
                limits,
                why: false,
                fix: None,
                json: false,
            })
        };
        let main = Limits::main();
        for (line, limits) in [
            ("explain c f --pairs 64 --as officer", main.pairs(64)),
            ("explain --skills=0 c f --as officer", main.skills(0)),
            (
                "explain c f --skills 5 --pairs 7 --as officer",
                main.pairs(7).skills(5),
            ),
            (
                "explain c f --pairs 4294967295 --skills 513 --as officer",
                main,
            ),
        ] {
            assert_eq!(parsed(line), Ok(under(limits)), "{line}");
        }
    }

    #[test]
    fn each_reader_has_a_name() {
        for reader in Reader::ALL {
            let Ok(Command::Explain(asked)) = parsed(&format!("explain c f --as {reader}")) else {
                panic!("it is asked for {reader}");
            };
            assert_eq!(asked.reader, *reader);
        }
    }

    #[test]
    fn a_dash_is_standard_input() {
        let piped = Command::Explain(Explain {
            catalogue: file("c"),
            fit: Source::StandardInput,
            reader: Reader::Officer,
            names: None,
            league: None,
            limits: Limits::main(),
            why: false,
            fix: None,
            json: false,
        });
        assert_eq!(parsed("explain c - --as officer"), Ok(piped));
        assert_eq!(
            parsed("explain - - --as pilot"),
            Err("standard input is one image, not both".to_string())
        );
    }

    #[test]
    fn wrong_usage_is_named() {
        const NO_FILE: &str = "- is no file to write: standard output has what is said";
        for (line, wrong) in [
            ("", "nothing is asked"),
            ("explain", "explain wants a CATALOGUE"),
            ("explain c", "explain wants a FIT"),
            ("hall c", "hall wants a FOLDER"),
            ("explain c f g --as pilot", "g is one word too many"),
            ("explain c f --names", "--names wants a file"),
            ("explain c f --names=", "--names wants a file"),
            ("explain c f --names a --names b", "--names stands twice"),
            ("hall c f --names a", "hall takes no --names"),
            ("hall c f --why", "hall takes no --why"),
            ("trim c f --why", "trim takes no --why"),
            ("hall c f --fix", "hall takes no --fix"),
            ("train c f --result 0 --budget 3", "train takes no --budget"),
            (
                "explain c f --as officer --budget 3",
                "--budget is of tries to find a fix, so it wants --fix",
            ),
            (
                "explain c f --as pilot --fix",
                "--fix is an officer's: it wants --as officer",
            ),
            (
                "explain c f --as officer --fix --budget two",
                "--budget two is no whole number up to 4294967295",
            ),
            (
                "explain c f --as officer --fix --budget -1",
                "--budget -1 is no whole number up to 4294967295",
            ),
            (
                "explain c f --as officer --fix --budget 4294967296",
                "--budget 4294967296 is no whole number up to 4294967295",
            ),
            (
                "explain c f --as officer --fix --budget",
                "--budget wants a number",
            ),
            ("explain c f --as officer --fix=9", "--fix takes no value"),
            ("explain c f --why=x", "--why takes no value"),
            (
                "explain c f --why",
                "explain wants --as and who reads it: guest, pilot or officer",
            ),
            (
                "explain c f --why --as guest",
                "--why is an officer's: it wants --as officer",
            ),
            (
                "explain c f --why --as pilot",
                "--why is an officer's: it wants --as officer",
            ),
            (
                "explain c f --why --as officer --profile p --allowance 1",
                "--why is about the list without a league, so it takes no --profile",
            ),
            ("pack f --json", "pack takes no --json"),
            (
                "explain c f --types t --as pilot",
                "explain takes no --types",
            ),
            ("pack", "pack wants a FIT.txt"),
            ("widen o", "widen wants a NEW"),
            ("widen o -", NO_FILE),
            ("profile w -", NO_FILE),
            ("train c f --result 0 -o -", NO_FILE),
            ("trim c f -o -", NO_FILE),
            ("train c f --result 0 -o=-", NO_FILE),
            ("widen o n --json", "widen takes no --json"),
            ("train c", "train wants a FIT"),
            (
                "train c f",
                "train wants --result and what it is for: 0 the ship, 1 the character, 2 the first \
                 item",
            ),
            ("train c f --result", "--result wants a number"),
            (
                "train c f --result ship",
                "--result ship is no whole number up to 4294967295",
            ),
            (
                "train c f --result 0 --steps 4294967296",
                "--steps 4294967296 is no whole number up to 4294967295",
            ),
            ("train c f --result 0 -o", "-o wants a file"),
            ("train c f --result 0 --as pilot", "train takes no --as"),
            (
                "train - - --result 0",
                "standard input is one image, not both",
            ),
            ("trim c", "trim wants a FIT"),
            ("trim c f --names n", "trim takes no --names"),
            ("trim c f g", "g is one word too many"),
            ("trim - -", "standard input is one image, not both"),
            (
                "explain c f --as pilot --steps 1",
                "explain takes no --steps",
            ),
            ("pack f -o n", "pack takes no -o"),
            (
                "explain c f --profile p --as pilot",
                "--profile wants --allowance beside it",
            ),
            (
                "explain c f --allowance 5 --as pilot",
                "--allowance wants --profile beside it",
            ),
            (
                "explain c f --profile p --allowance many --as pilot",
                "--allowance many is no whole number up to 4294967295",
            ),
            (
                "explain c f --profile p --allowance 4294967296 --as pilot",
                "--allowance 4294967296 is no whole number up to 4294967295",
            ),
            ("explain c f --allowance", "--allowance wants a number"),
            ("hall c f --profile p", "hall takes no --profile"),
            (
                "explain c f --pairs -1 --as pilot",
                "--pairs -1 is no whole number up to 4294967295",
            ),
            (
                "explain c f --skills 4294967296 --as pilot",
                "--skills 4294967296 is no whole number up to 4294967295",
            ),
            ("explain c f --pairs", "--pairs wants a number"),
            ("explain c f --skills 1 --skills 1", "--skills stands twice"),
            ("hall c f --pairs 64", "hall takes no --pairs"),
            ("hall c f --as officer", "hall takes no --as"),
            ("pack f --as guest", "pack takes no --as"),
            ("widen o n --as pilot", "widen takes no --as"),
            (
                "explain c f",
                "explain wants --as and who reads it: guest, pilot or officer",
            ),
            (
                "explain c f --json",
                "explain wants --as and who reads it: guest, pilot or officer",
            ),
            (
                "explain c f --as admin",
                "--as admin is no guest, pilot or officer",
            ),
            (
                "explain c f --as Guest",
                "--as Guest is no guest, pilot or officer",
            ),
            ("explain c f --as 0", "--as 0 is no guest, pilot or officer"),
            ("explain c f --as", "--as wants a reader"),
            ("explain c f --as=", "--as wants a reader"),
            ("explain c f --as pilot --as pilot", "--as stands twice"),
            ("hall c f --skills 64", "hall takes no --skills"),
            ("profile w", "profile wants a NEW"),
            ("pack f --out=", "--out wants a folder"),
            ("explain c f --jsn", "there is no option --jsn"),
            ("explian c f", "there is no command explian"),
        ] {
            assert_eq!(parsed(line), Err(wrong.to_string()), "{line}");
        }
    }

    #[test]
    fn help_is_given_wherever_it_is_asked_for() {
        assert_eq!(parsed("--help"), Ok(Command::Help));
        assert_eq!(parsed("help"), Ok(Command::Help));
        assert_eq!(parsed("explain c -h"), Ok(Command::Help));
        assert_eq!(parsed("-V"), Ok(Command::Version));
        assert!(HELP.contains(USAGE));
    }
}
