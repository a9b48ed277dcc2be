//! The pieces of Rattle in the README: each stands in a program that is proved.

use super::text_of;

/// The programs' files that the pieces are from.
const FILES: [&str; 4] = [
    "crates/maker_case/src/registers.rt",
    "crates/maker_case/src/logs.rt",
    "crates/maker_case/src/slips.rt",
    "crates/reader_case/src/main.rt",
];

/// The README's pieces of Rattle.
fn pieces() -> Vec<String> {
    let text = text_of("README.md");
    let behind = text.split("```rattle\n").skip(1);
    let piece = |behind: &str| behind.split_once("```").expect("an end").0.to_string();
    behind.map(piece).collect()
}

/// A line of `use`, of code or of what contracts cite.
fn is_use(line: &str) -> bool {
    line.trim_start_matches("ghost ").starts_with("use ")
}

/// What the lines of `use` of a text bring in, each name with its path: one line
/// may name several in braces.
fn imported(text: &str) -> Vec<String> {
    let code = text.lines().filter(|line| !line.starts_with(['/', '#']));
    let code = code.collect::<Vec<_>>().join(" ");
    let items = code.split(';').map(str::trim_start);
    let names = items.filter(|item| is_use(item)).flat_map(|item| {
        let (path, names) = item.split_once('{').unwrap_or((item, ""));
        let names = names.trim_end_matches('}').split(',');
        names.map(move |name| format!("{path}{}", name.trim()))
    });
    names.collect()
}

/// What the lines of `use` bring in, and each function with its comment, stand in
/// one file. The file may bring in more.
fn stands_in(piece: &str, file: &str) -> bool {
    let code = text_of(file);
    let brought_in = imported(&code);
    piece.split("\n\n").all(|part| {
        let part = part.trim_end();
        if part.lines().all(is_use) {
            imported(part).iter().all(|name| brought_in.contains(name))
        } else {
            format!("\n{code}\n").contains(&format!("\n{part}\n"))
        }
    })
}

/// A piece that has a contract has the lines of `use` that it cites too.
fn cites_what_it_uses(piece: &str) -> bool {
    piece.contains("ensures") == piece.starts_with("ghost use ")
}

#[test]
fn pieces_stand_in_proved_programs() {
    let pieces = pieces();
    assert_eq!(pieces.len(), 6);
    for piece in pieces {
        assert!(
            piece.lines().next().is_some_and(is_use),
            "no line of use: {piece}"
        );
        assert!(cites_what_it_uses(&piece), "no line of ghost use: {piece}");
        let stands = FILES.iter().any(|file| stands_in(&piece, file));
        assert!(stands, "in no program: {piece}");
    }
}

/// The README has no other Rattle: what is indented is commands or reports.
#[test]
fn no_other_pieces() {
    let text = text_of("README.md");
    let outside = text.split("```").step_by(2).flat_map(str::lines);
    for line in outside.filter(|line| line.starts_with("    ")) {
        assert!(!line.contains("let ") && !line.contains("fn "), "{line}");
    }
}
