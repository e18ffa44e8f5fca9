//! The text of the table program.

use crate::calls::{Calls, Row};

/// Document 01's text of the table on the board that a word names, or of the refusal.
pub fn table_text(board: u32, description: &[u8]) -> String {
    let calls = Calls::on(board, description);
    let (accepted, network) = match (calls.accept(), calls.network()) {
        (Ok(accepted), Ok(network)) => (accepted, network),
        (Err(refusal), _) | (_, Err(refusal)) => return format!("{refusal}\n"),
    };
    let mut rows = vec![Row::default(); accepted.processes];
    if let Err(refusal) = calls.table(&mut rows) {
        return format!("{refusal}\n");
    }
    let description = &network.array.description;
    let mut text = format!(
        "processes {} instances {} steps {}\n",
        accepted.processes, accepted.instances, accepted.steps
    );
    for row in &rows {
        text.push_str(&row_text(row, description.loops(), description.streams()));
        text.push('\n');
    }
    text
}

/// One row; a null row ends after `n 0` with `p` and the lengths.
fn row_text(row: &Row, loops: usize, streams: usize) -> String {
    let mut words = vec!["y".to_string()];
    words.extend(numbers(&row.point[..loops - 1]));
    words.extend(["n".to_string(), row.count.to_string()]);
    if row.count == 0 {
        words.push("p".to_string());
        words.extend(numbers(&row.soak[..streams]));
        return words.join(" ");
    }
    words.push("f".to_string());
    words.extend(numbers(&row.first[..loops]));
    words.push("l".to_string());
    words.extend(numbers(&row.last[..loops]));
    words.push("s".to_string());
    words.extend(numbers(&row.soak[..streams]));
    words.push("d".to_string());
    words.extend(numbers(&row.drain[..streams]));
    words.join(" ")
}

/// Numbers in decimal.
fn numbers<T: ToString>(list: &[T]) -> impl Iterator<Item = String> + '_ {
    list.iter().map(|number| number.to_string())
}
