//! The page `docs/CALLING.md`: its sessions and its C program, run again. (Its
//! Rust is run by the doc tests of `rust/site`.)

use std::fs;
use std::io::{self, Write};
use std::path::Path;
use std::process::Command;

use fitcheck::Entry;

use crate::json::Value;
use crate::{folder, library};

/// The example that the page builds on.
#[path = "../../examples/rifter.rs"]
#[allow(dead_code)]
mod rifter;

const PAGE: &str = include_str!("../../../../docs/CALLING.md");

/// The lines of the page's blocks of a kind, block by block.
fn blocks(kind: &str) -> Vec<Vec<&'static str>> {
    let mut blocks: Vec<Vec<&str>> = Vec::new();
    let mut inside = false;
    for line in PAGE.lines() {
        if let Some(begun) = line.strip_prefix("```") {
            inside = begun == kind;
            if inside {
                blocks.push(Vec::new());
            }
        } else if inside {
            blocks.last_mut().expect("a block is open").push(line);
        }
    }
    blocks
}

/// The commands of the page's sessions with what they print.
fn sessions() -> Vec<(&'static str, String)> {
    let mut sessions: Vec<(&str, String)> = Vec::new();
    for line in blocks("console").concat() {
        if let Some(command) = line.strip_prefix("$ ") {
            sessions.push((command, String::new()));
        } else {
            let (_, printed) = sessions.last_mut().expect("a command comes first");
            *printed += &format!("{line}\n");
        }
    }
    sessions
}

/// What a session that begins so prints.
fn session(begin: &str) -> String {
    let found = sessions().into_iter().find(|it| it.0.starts_with(begin));
    found.unwrap_or_else(|| panic!("the page runs {begin}")).1
}

#[test]
fn the_command_prints_what_the_page_shows() {
    let at = folder("page");
    rifter::write(&at.join("demo")).unwrap();
    // An old catalogue: 1.5 of attribute 182 on type 3302, as an f32.
    let mut old = vec![0; 16];
    let words = [1u32, 3302, 182, 1.5f32.to_bits()];
    old.extend(words.iter().flat_map(|word| word.to_le_bytes()));
    fs::write(at.join("demo/old.bin"), old).unwrap();
    // The fit and the catalogue in words stand on the page.
    for (block, file) in blocks("text")
        .iter()
        .zip(["league.txt", "types.txt", "kestrel.txt"])
    {
        fs::create_dir_all(at.join("words")).unwrap();
        fs::write(at.join("words").join(file), block.join("\n")).unwrap();
    }

    let mut run = 0;
    for (command, printed) in sessions() {
        let Some(words) = command.strip_prefix("fitcheck ") else {
            continue;
        };
        let (words, input) = words.split_once(" < ").unwrap_or((words, ""));
        let mut made = Command::new(env!("CARGO_BIN_EXE_fitcheck"));
        made.args(words.split_whitespace()).current_dir(&at);
        if !input.is_empty() {
            made.stdin(fs::File::open(at.join(input)).unwrap());
        }
        let ran = made.output().unwrap();
        // A terminal shows warnings first: they are written before the text.
        let both = [ran.stderr, ran.stdout].concat();
        assert_eq!(String::from_utf8(both).unwrap(), printed, "{command}");
        run += 1;
    }
    assert!(run >= 33, "the page has {run} runs of the command");
}

#[test]
fn the_example_prints_what_the_page_shows() {
    assert_eq!(
        session("cargo run --quiet --example rifter"),
        rifter::say().unwrap()
    );
}

/// What the C program prints, compiled as the page says and linked with the
/// library that this crate links.
#[test]
fn the_c_program_prints_what_the_page_shows() {
    let compiler = ["cc", "gcc", "clang"]
        .into_iter()
        .find(|name| Command::new(name).arg("--version").output().is_ok());
    let Some(compiler) = compiler else {
        // Not by eprintln!, which a test that passes keeps to itself.
        let skipped = "SKIPPED: no C compiler (cc, gcc, clang): the page's C program was not run";
        writeln!(io::stderr(), "{skipped}").unwrap();
        return;
    };
    let at = folder("c");
    let program = blocks("c").concat().join("\n");
    fs::write(at.join("small.c"), program + "\n").unwrap();
    let header = Path::new(env!("CARGO_MANIFEST_DIR")).join("include");
    let compiled = Command::new(compiler)
        .args(["-std=c99", "-Wall", "-Wextra", "-Wpedantic", "-Werror"])
        .arg("-I")
        .arg(&header)
        .arg("small.c")
        .arg(Path::new(env!("FITCHECK_LINKED")).join(library::LIBRARY))
        .args(["-o", "small"])
        .current_dir(&at)
        .output()
        .unwrap();
    let said = String::from_utf8_lossy(&compiled.stderr);
    assert!(compiled.status.success(), "{said}");
    let ran = Command::new(at.join("small")).output().unwrap();
    assert!(ran.status.success());
    assert_eq!(String::from_utf8(ran.stdout).unwrap(), session("./small"));
}

/// The words in backticks of a table's cell, but for what stands in brackets.
fn words(cell: &str) -> Vec<String> {
    let mut plain = String::new();
    let mut depth = 0;
    for character in cell.chars() {
        match character {
            '(' => depth += 1,
            ')' => depth -= 1,
            _ if depth == 0 => plain.push(character),
            _ => {}
        }
    }
    let parts = plain.split('`').skip(1).step_by(2);
    parts.map(str::to_string).collect()
}

/// The cells behind the row of a table that begins so.
fn row(begin: &str) -> Vec<String> {
    let found = PAGE.lines().find_map(|line| {
        let (first, rest) = line.strip_prefix("| ")?.split_once(" | ")?;
        (first == begin).then_some(rest)
    });
    words(found.unwrap_or_else(|| panic!("no row {begin:?}")))
}

/// The rules' fields: each rule stands in one row of the page's table.
#[test]
fn the_rules_in_json_have_the_fields_that_the_page_lists() {
    let (_, table) = PAGE.split_once("| `rule` | `type` and then |").unwrap();
    let rows: Vec<(Vec<String>, Vec<String>)> = table
        .lines()
        .skip(2)
        .take_while(|line| line.starts_with('|'))
        .filter_map(|line| line.trim_matches('|').split_once('|'))
        .map(|(rules, fields)| (words(rules), words(fields)))
        .collect();
    for number in (1..=21).chain(24..=26) {
        let mut bytes = [0; 24];
        bytes[1] = number;
        let entry = Entry::from_bytes(&bytes);
        let name = entry.rule.name().to_string();
        let mut found = rows.iter().filter(|row| row.0.contains(&name));
        let (_, fields) = found.next().unwrap_or_else(|| panic!("no {name}"));
        assert!(found.next().is_none(), "{name} stands once");
        let shown = Value::parse(&format!("{}\n", fitcheck::json::entry(&entry, "")));
        assert_eq!(shown.names(), row("one of `entries`"));
        assert_eq!(shown.get("target").names(), row("`target` of the ship"));
        let names = shown.get("rule").names();
        assert_eq!(names[0], "type");
        assert_eq!(names[1..], fields[..], "{name}");
    }
    let named: usize = rows.iter().map(|row| row.0.len()).sum();
    assert_eq!(named, 24);
}

#[test]
fn the_objects_in_json_have_the_fields_that_the_page_lists() {
    let at = folder("shapes");
    rifter::write(&at).unwrap();
    std::os::unix::fs::symlink("nowhere", at.join("fits/gone.fit")).unwrap();
    let shown = |words: &[&str]| {
        let reader: &[&str] = match words[0] {
            "explain" => &["--as", "pilot"],
            _ => &[],
        };
        let ran = Command::new(env!("CARGO_BIN_EXE_fitcheck"))
            .args(words)
            .args(reader)
            .arg("--json")
            .current_dir(&at)
            .output()
            .unwrap();
        Value::parse(&String::from_utf8(ran.stdout).unwrap())
    };
    let explained = shown(&["explain", "types.bin", "fits/two.fit"]);
    assert_eq!(explained.names(), row("`explain`"));
    let items = explained.get("entries").list();
    let item = items.iter().find(|it| it.get("target").names().len() == 2);
    assert_eq!(
        item.unwrap().get("target").names(),
        row("`target` of an item")
    );
    let (one, other) = PAGE
        .lines()
        .find_map(|line| line.strip_prefix("| one of `skills` | "))
        .and_then(|cells| cells.split_once("; or "))
        .unwrap();
    assert_eq!(explained.get("skills").list()[0].names(), words(one));
    assert_eq!(words(other), ["result", "refusal"]);

    let why = |fit: &str| {
        let ran = Command::new(env!("CARGO_BIN_EXE_fitcheck"))
            .args(["explain", "types.bin", fit, "--as", "officer", "--why"])
            .arg("--json")
            .current_dir(&at)
            .output()
            .unwrap();
        Value::parse(&String::from_utf8(ran.stdout).unwrap())
    };
    let caused = why("fits/two.fit");
    assert_eq!(caused.names(), row("`explain`"));
    for entry in caused.get("entries").list() {
        assert_eq!(entry.names(), row("one of `entries`, with `--why`"));
    }
    let weighing = fitcheck::CatalogueBuilder::new()
        .type_info(34, 18, 4, Some(f32::NAN))
        .build()
        .unwrap();
    let laden = fitcheck::FitBuilder::new(587)
        .item(
            fitcheck::FitItem::new(34, fitcheck::Slot::Cargo),
            fitcheck::ItemResult::new(fitcheck::State::Online),
        )
        .build()
        .unwrap();
    let types = fs::read(at.join("types.bin")).unwrap();
    fs::write(at.join("types.bin"), weighing).unwrap();
    fs::write(at.join("laden.fit"), laden).unwrap();
    let caused = why("laden.fit");
    fs::write(at.join("types.bin"), types).unwrap();
    assert_eq!(caused.names(), row("`explain --why`, where 15 refuses it"));
    assert_eq!(caused.get("causes").names(), row("`refusal` by 15"));

    let fixed = Command::new(env!("CARGO_BIN_EXE_fitcheck"))
        .args(["explain", "types.bin", "fits/two.fit", "--as", "officer"])
        .args(["--fix", "--json"])
        .current_dir(&at)
        .output()
        .unwrap();
    let fixed = Value::parse(&String::from_utf8(fixed.stdout).unwrap());
    let fields = fixed.names();
    assert_eq!(fields.last().map(|name| &**name), Some("fix"));
    assert_eq!(fields[..fields.len() - 1], row("`explain`"));
    assert_eq!(fixed.get("fix").names(), row("`fix`"));

    let half = shown(&["explain", "types.bin", "fits/half.fit"]);
    assert_eq!(half.names(), row("`explain`, not all of it checked"));
    assert_eq!(half.get("unpaired").names(), row("`unpaired`"));

    let hall = shown(&["hall", "types.bin", "fits"]);
    assert_eq!(hall.names(), row("`hall`"));
    for (fit, kind) in hall.get("fits").list().iter().zip([
        "one of `fits`, refused",
        "one of `fits`, that cannot be read",
        "one of `fits`, not all of it checked",
        "one of `fits`, clear",
        "one of `fits`, faulted",
    ]) {
        assert_eq!(fit.names(), row(kind), "{kind}");
    }
    for steps in ["0", "9"] {
        let trained = ["types.bin", "rookie.fit", "--result", "5", "--steps", steps];
        let trained = shown(&[&["train"][..], &trained].concat());
        assert_eq!(trained.names(), row("`train`"));
        let skills = trained.get("skills").list();
        let lacking = trained.get("lacking").list();
        let made = usize::from(steps == "9");
        assert_eq!((skills.len(), lacking.len()), (made, 1 - made));
        for skill in skills.iter().chain(lacking) {
            assert_eq!(
                skill.names(),
                row("one of `skills` and `lacking` of `train`")
            );
        }
        let status = trained.get("status").text();
        assert_eq!(status, if steps == "9" { "trained" } else { "lacking" });
    }
    let trimmed = shown(&["trim", "types.bin", "fits/one.fit"]);
    assert_eq!(trimmed.names(), row("`trim`"));
    for kept in ["bytes", "types", "links", "bases"] {
        let row = row("`bytes`, `types`, `links`, `bases` of `trim`");
        assert_eq!(trimmed.get(kept).names(), row, "{kept}");
    }
    let refused = shown(&["explain", "types.bin", "fits/cut.fit"]);
    assert_eq!(refused.names(), row("a refused image"));
    assert_eq!(refused.get("refusal").names(), row("`refusal`"));
    let passed = shown(&["explain", "types.bin", "fits/two.fit", "--pairs", "4"]);
    assert_eq!(passed.get("refusal").names(), row("`refusal` by 13"));

    fs::write(at.join("empty.bin"), [0; 20]).unwrap();
    let bare = shown(&["hall", "empty.bin", "fits"]);
    let unchecked = bare.get("unchecked").list();
    assert_eq!(unchecked[0].names(), row("one of `unchecked`"));
    assert_eq!(
        bare.get("version").number(),
        f64::from(fitcheck::json::VERSION)
    );
    assert!(PAGE.contains(&format!("This is version {} of", fitcheck::json::VERSION)));
}
