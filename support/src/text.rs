//! Text for people: sections, sentences that are folded, and names of vertices, members and counts.

use std::path::Path;

use reference::layout::{member_of, round_of};
use reference::record::{is_round, Digest};

/// Lines are folded at this many characters.
const WIDTH: usize = 78;
const INDENT: usize = 2;

/// A text of sections.
#[derive(Clone, Debug, Default)]
pub struct Text {
    out: String,
}

impl Text {
    /// A heading, after an empty line unless it is the first.
    pub fn heading(&mut self, heading: &str) {
        if !self.out.is_empty() {
            self.out.push('\n');
        }
        self.raw(heading);
    }

    /// A sentence, indented by so many steps, and folded at spaces.
    pub fn say(&mut self, steps: usize, sentence: &str) {
        self.folded(&" ".repeat(INDENT * steps), INDENT * steps, sentence);
    }

    /// A sentence after a mark; what is folded stands below the sentence.
    pub fn item(&mut self, steps: usize, mark: &str, sentence: &str) {
        let start = format!("{}{mark} ", " ".repeat(INDENT * steps));
        self.folded(&start, start.chars().count(), sentence);
    }

    /// A line as it is, but for spaces at its end.
    pub fn raw(&mut self, line: &str) {
        self.out.push_str(line.trim_end());
        self.out.push('\n');
    }

    fn folded(&mut self, start: &str, indent: usize, sentence: &str) {
        let mut line = start.to_string();
        let mut is_empty = true;
        for word in sentence.split(' ') {
            if !is_empty && line.chars().count() + 1 + word.chars().count() > WIDTH {
                self.raw(&line);
                line = " ".repeat(indent);
                is_empty = true;
            }
            if !is_empty {
                line.push(' ');
            }
            line.push_str(word);
            is_empty = false;
        }
        self.raw(&line);
    }

    pub fn finish(self) -> String {
        self.out
    }
}

/// A vertex by its id (01: ref), with round and member. Lists of a state that is not well formed can
/// have any word.
pub fn vertex_name(id: u32) -> String {
    let (round, member) = (round_of(id), member_of(id));
    match is_round(round) {
        true => format!("ref {id} (round {round}, member {member})"),
        false => format!("{id}, which is no ref"),
    }
}

/// The same as an entry of a list.
pub fn entry_name(id: u32) -> String {
    let (round, member) = (round_of(id), member_of(id));
    match is_round(round) {
        true => format!("{id}  round {round}, member {member}"),
        false => format!("{id}  no ref"),
    }
}

/// A count with its noun.
pub fn counted(count: usize, one: &str, more: &str) -> String {
    match count {
        1 => format!("1 {one}"),
        count => format!("{count} {more}"),
    }
}

/// Members by number: "member 2", "members 0, 1 and 3".
pub fn members_named(members: impl IntoIterator<Item = u32>) -> String {
    let numbers: Vec<String> = members
        .into_iter()
        .map(|member| member.to_string())
        .collect();
    match numbers.len() {
        0 => "no member".to_string(),
        1 => format!("member {}", numbers[0]),
        _ => format!("members {}", joined(&numbers)),
    }
}

/// "a", "a and b", "a, b and c".
fn joined(parts: &[String]) -> String {
    match parts {
        [] => String::new(),
        [only] => only.clone(),
        [front @ .., last] => format!("{} and {last}", front.join(", ")),
    }
}

/// A digest as the host's 32 bytes, in their order.
pub fn digest_name(digest: Digest) -> String {
    let bytes = yardbook::Digest(digest).to_bytes();
    bytes.map(|byte| format!("{byte:02x}")).concat()
}

/// Whether a character can stand in a name: none that a terminal obeys or that turns the direction of
/// the text.
pub fn is_plain(c: char) -> bool {
    let turns = matches!(c, '\u{202A}'..='\u{202E}' | '\u{2066}'..='\u{2069}');
    !c.is_control() && !turns
}

/// A path as it can be printed.
pub fn path_name(path: &Path) -> String {
    let name = path.display().to_string();
    name.replace(|c| !is_plain(c), "?")
}
