//! Holds docs/PROMISES.md to the repository: every name that a row cites stands in a file that the row cites, every file and every
//! must-fail edit that it cites is there, every edit of the repository is cited and changes a text that stands once in its file, and
//! every definition that a reader has to believe has a row. How the page is read is said at the page's top.
//!
//! Holds comments and pages to docs/RULES.md, too: a heading of it that a comment of crates/ or a page cites is there, a text of three words or more
//! that a comment of crates/ or of the trials' model has in double quotes stands there, word for word, and so does the sentence of each rule and demand in PROMISES.md.
//! No comment and no page cites a document that the repository does not have. Run at the repository's root.

use std::collections::{BTreeMap, BTreeSet};
use std::fs;
use std::process::exit;

const PAGE: &str = "docs/PROMISES.md";
const RULES: &str = "docs/RULES.md";

/// The model of the trials, which quotes the rules that it was written from.
const MODEL: &str = "trials/model.rs";
/// Pages that tell how things came to be, and may cite what the repository does not have.
const HISTORIES: [&str; 4] = ["docs/PORT.md", "docs/LANDINGS.md", "docs/DESIGN-PASS.md", "docs/DECISIONS.md"];
/// Columns whose first cell is a sentence of docs/RULES.md.
const SENTENCES: [&str; 4] = ["Rule", "Demand 1", "Demand 2", "Demand 3"];

/// Columns whose first cell is a sentence or a number and cites nothing.
const QUOTES: [&str; 6] = ["Rule", "Demand 1", "Demand 2", "Demand 3", "Fact", "No."];
/// Words that stand before the name that a line declares.
const LEADING: [&str; 10] = ["pub", "abbrev", "unfoldable", "record", "data", "extern", "\"C\"", "fn", "enum", "struct"];
/// Columns that hold edits.
const EDITS: [&str; 3] = ["Bites", "Edit of the code", "Edit of the definition"];

struct Row {
    line: usize,
    titles: Vec<String>,
    cells: Vec<String>,
    /// the files that the row cites, or else its section
    files: Vec<String>,
}

fn main() {
    let page = read(PAGE);
    let rows = rows_of(&page);
    let mut faults = Vec::new();
    let mut cited = BTreeSet::new();
    for row in &rows {
        check_files(row, &mut faults);
        check_names(row, &mut faults);
        check_edits(row, &mut cited, &mut faults);
    }
    check_prose(&page, &mut faults);
    check_all_cited(&cited, &mut faults);
    for edit in cited.iter().filter(|edit| fs::metadata(edit).is_ok()) {
        check_old_texts(edit, &mut faults);
    }
    check_all_believed(&page, &rows, &mut faults);
    let rules = Rules::read();
    for row in &rows {
        check_sentence(row, &rules, &mut faults);
    }
    let comments = check_citations(&rules, &mut faults);
    for fault in &faults {
        eprintln!("{fault}");
    }
    if !faults.is_empty() {
        eprintln!("{PAGE} and {RULES}: {} faults", faults.len());
        exit(1);
    }
    println!("{PAGE}: {} rows, {} edits, all as cited", rows.len(), cited.len());
    println!("{RULES}: {} headings, and what {comments} comments cite and quote", rules.headings.len());
}

fn read(path: &str) -> String {
    fs::read_to_string(path).unwrap_or_else(|e| {
        eprintln!("{path}: {e}");
        exit(2)
    })
}

/// The rows of the page's tables, each with the titles of its columns.
fn rows_of(page: &str) -> Vec<Row> {
    let mut rows = Vec::new();
    let mut titles = Vec::new();
    let mut section_files = Vec::new();
    let mut in_table = false;
    for (k, line) in page.lines().enumerate() {
        if line.starts_with("## ") {
            section_files.clear();
        }
        if let Some(files) = line.strip_prefix("Files: ") {
            section_files = paths(files);
        }
        if !line.starts_with('|') {
            in_table = false;
            continue;
        }
        let cells: Vec<String> = line.trim_matches('|').split('|').map(|c| c.trim().to_string()).collect();
        if !in_table {
            titles = cells;
            in_table = true;
            continue;
        }
        if cells.iter().all(|c| c.chars().all(|x| x == '-')) {
            continue;
        }
        let own = paths(line);
        let files = if own.is_empty() { section_files.clone() } else { own };
        rows.push(Row { line: k + 1, titles: titles.clone(), cells, files });
    }
    rows
}

/// The words of a text that are paths of a crate's files, without `crates/`.
fn paths(text: &str) -> Vec<String> {
    text.split(|c: char| c.is_whitespace() || ",;()`".contains(c))
        .map(|w| w.trim_end_matches(['.', ':']))
        .filter(|w| w.contains('/') && (w.ends_with(".antt") || w.ends_with(".rt")))
        .map(|w| w.to_string())
        .collect()
}

fn check_files(row: &Row, faults: &mut Vec<String>) {
    if row.cells.len() != row.titles.len() {
        faults.push(format!("{PAGE}:{}: {} cells under {} titles", row.line, row.cells.len(), row.titles.len()));
    }
    for file in &row.files {
        if fs::metadata(format!("crates/{file}")).is_err() {
            faults.push(format!("{PAGE}:{}: there is no crates/{file}", row.line));
        }
    }
}

/// Every text between backticks, outside of the quotes and the edits, stands in one of the row's files.
fn check_names(row: &Row, faults: &mut Vec<String>) {
    let texts: Vec<String> = row.files.iter().filter_map(|f| fs::read_to_string(format!("crates/{f}")).ok()).collect();
    for (title, cell) in row.titles.iter().zip(&row.cells) {
        if QUOTES.contains(&title.as_str()) || EDITS.contains(&title.as_str()) {
            continue;
        }
        for name in cell.split('`').skip(1).step_by(2) {
            let last = name.rsplit("::").next().unwrap_or(name);
            if !texts.iter().any(|t| stands_in(t, last)) {
                faults.push(format!("{PAGE}:{}: `{name}` stands in none of: {}", row.line, row.files.join(", ")));
            }
        }
    }
}

/// From the first section on, a name is cited in a table alone, where it is checked.
fn check_prose(page: &str, faults: &mut Vec<String>) {
    let body = page.lines().enumerate().skip_while(|(_, line)| !line.starts_with("## "));
    for (k, line) in body.filter(|(_, line)| !line.starts_with('|') && line.contains('`')) {
        faults.push(format!("{PAGE}:{}: a name outside of a table: {line}", k + 1));
    }
}

/// Whether a file declares a name: after words such as `pub` and `record` a line of it begins with the name. A text of several words only
/// has to stand there.
fn stands_in(text: &str, name: &str) -> bool {
    if name.contains(' ') {
        return text.contains(name);
    }
    text.lines().any(|line| {
        let mut words = line.split_whitespace().skip_while(|w| LEADING.contains(w));
        words.next().is_some_and(|word| {
            let rest = word.strip_prefix(name).map(|r| r.chars().next());
            matches!(rest, Some(None | Some('(' | ',' | ':' | '<' | ';')))
        })
    })
}

/// Edits are cited as `crate: name, name; crate: name`; what starts with `runs`, `trials` or a bracket cites none.
fn check_edits(row: &Row, cited: &mut BTreeSet<String>, faults: &mut Vec<String>) {
    for (title, cell) in row.titles.iter().zip(&row.cells) {
        if !EDITS.contains(&title.as_str()) {
            continue;
        }
        for part in cell.split(';').map(str::trim).filter(|p| !p.is_empty()) {
            if part.starts_with("runs") || part.starts_with("trials") || part.starts_with('(') {
                continue;
            }
            let Some((krate, names)) = part.split_once(": ") else {
                faults.push(format!("{PAGE}:{}: '{part}' cites no edit", row.line));
                continue;
            };
            for name in names.split(", ") {
                let edit = format!("crates/{krate}/must-fail/{name}.edit");
                if fs::metadata(&edit).is_err() {
                    faults.push(format!("{PAGE}:{}: there is no {edit}", row.line));
                }
                cited.insert(edit);
            }
        }
    }
}

/// The files of a folder, by name; none where there is no such folder.
fn files_in(folder: &str) -> Vec<String> {
    let mut names: Vec<String> =
        fs::read_dir(folder).into_iter().flatten().flatten().map(|e| e.file_name().to_string_lossy().into_owned()).collect();
    names.sort();
    names
}

fn check_all_cited(cited: &BTreeSet<String>, faults: &mut Vec<String>) {
    for krate in files_in("crates") {
        for edit in files_in(&format!("crates/{krate}/must-fail")) {
            let path = format!("crates/{krate}/must-fail/{edit}");
            if !cited.contains(&path) {
                faults.push(format!("{PAGE}: no row cites {path}"));
            }
        }
    }
}

/// Every old text of an edit stands once in its file, as the edit's lines before it have left that. The gate sees it too, in its second half.
fn check_old_texts(edit: &str, faults: &mut Vec<String>) {
    let krate = edit.split("/must-fail/").next().unwrap_or(edit);
    let (mut file, mut old) = (String::new(), String::new());
    let mut texts: BTreeMap<String, String> = BTreeMap::new();
    for line in read(edit).lines() {
        if let Some(path) = line.strip_prefix("file: ") {
            file = format!("{krate}/{path}");
        } else if let Some(text) = line.strip_prefix("old: ") {
            old = text.to_string();
        } else if let Some(new) = line.strip_prefix("new: ") {
            let text = texts.entry(file.clone()).or_insert_with(|| read(&file));
            match text.matches(&old).count() {
                1 => *text = text.replace(&old, new),
                k => faults.push(format!("{edit}: '{old}' stands {k} times in {file}")),
            }
        }
    }
}

/// Every public name of a file of specs/ that the page does not call workings has a row under the title 'Definition'.
fn check_all_believed(page: &str, rows: &[Row], faults: &mut Vec<String>) {
    let workings: BTreeSet<String> = page.lines().filter_map(|l| l.strip_prefix("Workings: ")).flat_map(paths).collect();
    let mut believed: BTreeMap<String, BTreeSet<String>> = BTreeMap::new();
    for row in rows.iter().filter(|r| r.titles.first().is_some_and(|t| t == "Definition")) {
        for file in &row.files {
            believed.entry(file.clone()).or_default().extend(row.cells[0].split('`').skip(1).step_by(2).map(str::to_string));
        }
    }
    for krate in files_in("crates") {
        for name in files_in(&format!("crates/{krate}/specs")) {
            let file = format!("{krate}/specs/{name}");
            if name == "Lib.antt" || workings.contains(&file) {
                continue;
            }
            for definition in definitions_of(&read(&format!("crates/{file}"))) {
                if !believed.get(&file).is_some_and(|rows| rows.contains(&definition)) {
                    faults.push(format!("{PAGE}: no row for the definition `{definition}` of {file}"));
                }
            }
        }
    }
}

/// The names that a file of specs/ makes public; the fields of a record are part of the record.
fn definitions_of(text: &str) -> Vec<String> {
    let mut names = Vec::new();
    for line in text.lines() {
        let words: Vec<&str> = line.split_whitespace().collect();
        let name = match words.as_slice() {
            ["abbrev" | "unfoldable", "pub", name, ..] => name,
            ["pub", "record" | "data", name, ..] => name,
            _ => continue,
        };
        names.push(name.to_string());
    }
    names
}

/// docs/RULES.md: its headings, and its text with one blank between words and no backticks.
struct Rules {
    headings: BTreeSet<String>,
    text: String,
}

impl Rules {
    fn read() -> Rules {
        let page = read(RULES);
        let headings = page.lines().filter_map(|l| l.strip_prefix("## ")).map(str::to_string).collect();
        Rules { headings, text: spaced(&page) }
    }

    fn has(&self, quote: &str) -> bool {
        self.text.contains(&spaced(quote))
    }
}

/// A text with one blank between words, and without backticks.
fn spaced(text: &str) -> String {
    text.replace('`', "").split_whitespace().collect::<Vec<_>>().join(" ")
}

/// The first cell under a rule or a demand stands in docs/RULES.md, or what of it is in double quotes; what is in brackets is the page's own.
fn check_sentence(row: &Row, rules: &Rules, faults: &mut Vec<String>) {
    if !row.titles.first().is_some_and(|t| SENTENCES.contains(&t.as_str())) || row.cells[0].starts_with('(') {
        return;
    }
    let sentence = row.cells[0].strip_prefix('"').and_then(|rest| rest.split('"').next()).unwrap_or(&row.cells[0]);
    if !rules.has(sentence) {
        faults.push(format!("{PAGE}:{}: '{sentence}' does not stand in {RULES}", row.line));
    }
}

/// What comments and pages cite and quote; how many comments were looked at.
fn check_citations(rules: &Rules, faults: &mut Vec<String>) -> usize {
    let mut count = 0;
    let below = ["crates", "trials", "bench", "include", "docs"].iter().flat_map(|folder| all_files(folder));
    for path in below.chain(["README.md", "CONTRIBUTING.md", "crates.txt"].map(str::to_string)) {
        let page = path.ends_with(".md");
        if page && HISTORIES.contains(&path.as_str()) || !page && path.starts_with("docs/") {
            continue;
        }
        for (line, comment) in comments_of(&path) {
            count += 1;
            let at = format!("{path}:{line}");
            if comment.contains("ocument 0") || comment.contains("ocuments 0") {
                faults.push(format!("{at}: cites a document that is not here: {comment:.90}"));
            }
            for heading in cited_headings(&comment).into_iter().filter(|h| !rules.headings.contains(h)) {
                faults.push(format!("{at}: {RULES} has no heading '{heading}'"));
            }
            let quoting = path.starts_with("crates/") || path == MODEL;
            for quote in comment.split('"').skip(1).step_by(2).filter(|q| quoting && q.split_whitespace().count() > 2) {
                if !rules.has(quote) {
                    faults.push(format!("{at}: \"{quote}\" does not stand in {RULES}"));
                }
            }
        }
    }
    count
}

/// The headings of docs/RULES.md that a text cites: after the page's name, in single quotes, with `, ` or ` and ` between them.
fn cited_headings(text: &str) -> Vec<String> {
    let mut headings = Vec::new();
    for after in text.split("docs/RULES.md, ").skip(1) {
        let mut rest = after;
        while let Some((heading, more)) = rest.strip_prefix('\'').and_then(|r| r.split_once('\'')) {
            headings.push(heading.to_string());
            rest = more.strip_prefix(", ").or(more.strip_prefix(" and ")).unwrap_or("");
        }
    }
    headings
}

/// The comments of a file, each with the line where it begins: lines of comment that follow each other are one. A page is one comment.
fn comments_of(path: &str) -> Vec<(usize, String)> {
    let marks: &[&str] = match path.rsplit('.').next() {
        Some("md") => return vec![(1, spaced(&read(path)))],
        Some("antt") => &["--"],
        Some("edit" | "txt") => &["# "],
        Some("c" | "h") => &["///", "//", "/*", " *"],
        Some("rt" | "rs") => &["///", "//!", "//"],
        _ => return Vec::new(),
    };
    let mut comments: Vec<(usize, String)> = Vec::new();
    let mut last = 0;
    for (k, line) in read(path).lines().enumerate() {
        let whole = marks.iter().find_map(|mark| line.strip_prefix(mark).or(line.trim_start().strip_prefix(mark)));
        match (whole, behind_code(line, path)) {
            (Some(text), _) if last == k && k > 0 => comments.last_mut().unwrap().1.push_str(&format!(" {}", text.trim())),
            (Some(text), _) => comments.push((k + 1, text.trim().to_string())),
            (None, Some(text)) => comments.push((k + 1, text.trim().to_string())),
            (None, None) => continue,
        }
        last = if whole.is_some() { k + 1 } else { 0 };
    }
    comments.into_iter().map(|(line, text)| (line, spaced(&text))).collect()
}

/// A comment behind code: what follows the mark, where no text in quotes holds the mark.
fn behind_code<'a>(line: &'a str, path: &str) -> Option<&'a str> {
    let line = line.strip_prefix("old: ").or(line.strip_prefix("new: ")).unwrap_or(line);
    let (code, text) = if path.ends_with(".antt") { line.split_once(" -- ")? } else { line.split_once("// ").or(line.split_once("/* "))? };
    (code.matches('"').count() % 2 == 0).then_some(text)
}

/// Every file below a folder, by name, but for what a build has put there.
fn all_files(folder: &str) -> Vec<String> {
    let mut files = Vec::new();
    for name in files_in(folder).into_iter().filter(|name| name != "out") {
        let path = format!("{folder}/{name}");
        match fs::metadata(&path) {
            Ok(m) if m.is_dir() => files.extend(all_files(&path)),
            _ => files.push(path),
        }
    }
    files
}
