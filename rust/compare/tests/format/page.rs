//! Reads the page: blocks of bytes, sections, tables.

pub const PAGE: &str = include_str!("../../../../docs/FORMAT.md");

/// The lines of the fenced block whose opening says so.
pub fn block(opening: &str) -> Vec<&'static str> {
    let fence = format!("```{opening}");
    let lines: Vec<&str> = PAGE
        .lines()
        .skip_while(|line| *line != fence)
        .skip(1)
        .take_while(|line| *line != "```")
        .collect();
    assert!(!lines.is_empty(), "the page has no block `{opening}`");
    lines
}

/// The bytes of a block of lines `place | bytes | what they are`.
pub fn bytes(name: &str) -> Vec<u8> {
    behind(Vec::new(), name)
}

/// The same for a block that goes on behind other bytes.
pub fn behind(mut bytes: Vec<u8>, name: &str) -> Vec<u8> {
    for line in block(&format!("hex {name}")) {
        let cells: Vec<&str> = line.splitn(3, '|').map(str::trim).collect();
        assert_eq!(cells[0], bytes.len().to_string(), "the place of `{line}`");
        bytes.extend(hex(cells[1]));
    }
    bytes
}

/// Bytes in hexadecimal, apart by spaces.
pub fn hex(text: &str) -> Vec<u8> {
    text.split_whitespace()
        .map(|byte| u8::from_str_radix(byte, 16).unwrap_or_else(|_| panic!("`{byte}` in `{text}`")))
        .collect()
}

/// The headings, without their marks.
pub fn headings() -> Vec<&'static str> {
    PAGE.lines()
        .filter(|line| line.starts_with("##"))
        .map(|line| line.trim_start_matches('#').trim())
        .collect()
}

/// The cells of a row.
fn cells(line: &str) -> Vec<&str> {
    let inner = line
        .strip_prefix('|')
        .and_then(|line| line.strip_suffix('|'));
    let inner = inner.unwrap_or_else(|| panic!("a row ends with a bar: `{line}`"));
    inner.split('|').map(str::trim).collect()
}

/// The rows of the table under a heading whose head begins with that cell.
pub fn table(heading: &str, first: &str) -> Vec<Vec<&'static str>> {
    let head = format!("| {first} |");
    let mut lines = PAGE
        .lines()
        .skip_while(|line| line.trim_start_matches('#').trim() != heading)
        .skip_while(|line| !line.starts_with(&head));
    assert!(
        lines.next().is_some(),
        "no table `{first}` under `{heading}`"
    );
    lines
        .skip(1)
        .take_while(|line| line.starts_with('|'))
        .map(cells)
        .collect()
}
