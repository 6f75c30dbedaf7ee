//! The text that the replay program prints (document 01, Cases, E11 and the
//! paragraph after it).

use std::fmt::Write;

use crate::answer::{number_of, value_of};
use crate::buffers::links_of;
use crate::calls;
use crate::sizes::*;

/// All that is printed for this whole standard input.
pub fn replay(input: &[u8]) -> String {
    if input.len() < REPLAY_TABLES_BYTES {
        return "short\n".to_string();
    }
    let mut a = input[..TABLE_BYTES].to_vec();
    let mut b = input[TABLE_BYTES..REPLAY_TABLES_BYTES].to_vec();
    let mut list = vec![0; LIST_BYTES];
    let loaded = calls::pair(&a, &b, &mut list);
    let (number, value) = (number_of(loaded), value_of(loaded));
    if number != 0 {
        return format!("load refused {number} row {value}\n");
    }

    let mut lines = vec![format!("load {value}")];
    let edits = input[REPLAY_TABLES_BYTES..].chunks(EDIT_BYTES);
    for (place, edit) in edits.take(REPLAY_EDITS).enumerate() {
        if edit.len() < EDIT_BYTES {
            lines.push(format!("part {}", edit.len()));
            break;
        }
        let count = place + 1;
        let answer = calls::edit(&mut a, &mut b, &mut list, edit);
        lines.push(match number_of(answer) {
            0 => {
                let links = links_of(&list).len();
                format!("edit {count} kept {} links {links}", value_of(answer))
            }
            number => format!("edit {count} refused {number}"),
        });
    }
    for link in links_of(&list) {
        lines.push(format!(
            "link {} {} {} {}",
            link.a, link.b, link.distance, link.amount
        ));
    }
    text_of(&lines)
}

/// Every line ends in a newline, the last one too.
fn text_of(lines: &[String]) -> String {
    let mut text = String::new();
    for line in lines {
        writeln!(text, "{line}").expect("a string takes any text");
    }
    text
}
