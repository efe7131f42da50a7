//! The table of cases that all clients are tried by: clients/cases.txt, whose head says how it is written.

use std::path::Path;

/// A case over a disk of its own.
pub struct Case {
    pub name: String,
    pub is_alone: bool,
    /// Blocks, sectors of each, pointer slots, primary blocks.
    pub disk: Vec<String>,
    /// Requests and their replies.
    pub steps: Vec<(String, String)>,
}

/// Another side of a link.
pub enum Sender {
    Program { status: i32 },
    Hub,
}

/// What another side sends, and how the link then ends.
pub struct LinkCase {
    pub sender: Sender,
    pub sent: Vec<u8>,
    pub end: String,
}

/// All that the file has.
#[derive(Default)]
pub struct Table {
    pub cases: Vec<Case>,
    pub replies: Vec<(Vec<u8>, String)>,
    pub links: Vec<LinkCase>,
}

/// Reads the file.
pub fn read() -> Table {
    let path = Path::new(env!("CARGO_MANIFEST_DIR")).join("../cases.txt");
    let text = std::fs::read_to_string(path).expect("clients/cases.txt is there");
    let mut table = Table::default();
    for line in text.lines().filter(|line| !line.is_empty() && !line.starts_with('#')) {
        take(&mut table, line);
    }
    table
}

fn take(table: &mut Table, line: &str) {
    let (word, rest) = line.split_once(' ').expect("a line has words");
    let pair = || rest.split_once("> ").expect("a line has an answer");
    match word {
        "case" => table.cases.push(Case {
            name: rest.to_owned(),
            is_alone: rest.ends_with(" alone"),
            disk: Vec::new(),
            steps: Vec::new(),
        }),
        "disk" => last(table).disk = rest.split(' ').map(str::to_owned).collect(),
        "reply" => table.replies.push((bytes(pair().0), pair().1.to_owned())),
        "link" => table.links.push(link_case(pair())),
        _ => {
            let (request, reply) = line.split_once(" > ").expect("a step has an answer");
            last(table).steps.push((request.to_owned(), reply.to_owned()));
        }
    }
}

fn last(table: &mut Table) -> &mut Case {
    table.cases.last_mut().expect("a line of a case stands below its name")
}

fn link_case((words, end): (&str, &str)) -> LinkCase {
    let (sender, words) = words.split_once(' ').expect("a link has a sender");
    let (sender, sent) = match sender {
        "program" => {
            let (status, sent) = words.split_once(' ').expect("a program has a status");
            (Sender::Program { status: status.parse().expect("a status is a number") }, sent)
        }
        _ => (Sender::Hub, words),
    };
    LinkCase { sender, sent: bytes(sent), end: end.to_owned() }
}

/// The bytes of hexadecimal digits and `BYTE*COUNT`, parted by spaces; `-` is none.
pub fn bytes(text: &str) -> Vec<u8> {
    text.split(' ').filter(|word| !word.is_empty() && *word != "-").flat_map(word_bytes).collect()
}

fn word_bytes(word: &str) -> Vec<u8> {
    let digits = |text: &str| -> Vec<u8> {
        let byte = |at| u8::from_str_radix(&text[at..at + 2], 16).expect("hexadecimal digits");
        (0..text.len()).step_by(2).map(byte).collect()
    };
    match word.split_once('*') {
        Some((byte, count)) => digits(byte).repeat(count.parse().expect("a count")),
        None => digits(word),
    }
}
