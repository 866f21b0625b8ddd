//! Lines of text for a screen: wrapped sentences, labelled rows, tables and
//! trees.

/// How many characters a wrapped line has at most, if its words allow it.
pub const WIDTH: usize = 92;
/// Between two columns.
const GAP: &str = "  ";
/// A deeper tree is shown as a list.
const DEEPEST: usize = 10;

/// The text in lines of at most `width` characters, broken at blanks.
pub fn wrap(text: &str, width: usize) -> Vec<String> {
    let mut lines: Vec<String> = Vec::new();
    for word in text.split(' ') {
        match lines.last_mut() {
            Some(line) if columns(line).saturating_add(columns(word)) < width => {
                line.push(' ');
                line.push_str(word);
            }
            _ => lines.push(word.to_string()),
        }
    }
    lines
}

/// A sentence in lines; the second and later ones are set in.
pub fn sentence(text: &str) -> Vec<String> {
    let lines = wrap(text, WIDTH).into_iter().enumerate();
    lines
        .map(|(number, line)| match number {
            0 => line,
            _ => format!("{GAP}{line}"),
        })
        .collect()
}

/// The lines, set in by two blanks.
pub fn indented(lines: Vec<String>) -> Vec<String> {
    let indent = |line: String| match line.as_str() {
        "" => line,
        _ => format!("{GAP}{line}"),
    };
    lines.into_iter().map(indent).collect()
}

/// A row for each label, with the texts wrapped and one below another.
pub fn rows(rows: &[(&str, String)]) -> Vec<String> {
    let widest = rows.iter().map(|(label, _)| columns(label)).max();
    let label_width = widest.unwrap_or(0);
    let text_width = WIDTH.saturating_sub(label_width);
    let mut lines = Vec::new();
    for (label, text) in rows {
        for (number, part) in wrap(text, text_width).into_iter().enumerate() {
            let label = if number == 0 { label } else { "" };
            lines.push(format!("{label:<label_width$}{GAP}{part}"));
        }
    }
    lines
}

/// The rows with their cells one below another.
pub fn table(rows: &[Vec<String>]) -> Vec<String> {
    let most = rows.iter().map(Vec::len).max().unwrap_or(0);
    let width = |column: usize| {
        let cells = rows.iter().filter_map(|row| row.get(column));
        cells.map(|cell| columns(cell)).max().unwrap_or(0)
    };
    let widths: Vec<usize> = (0..most).map(width).collect();
    let line = |row: &Vec<String>| {
        let cells = row.iter().zip(&widths);
        let padded: Vec<String> = cells
            .map(|(cell, width)| format!("{cell:<width$}"))
            .collect();
        padded.join(GAP).trim_end().to_string()
    };
    rows.iter().map(line).collect()
}

fn columns(text: &str) -> usize {
    text.chars().count()
}

/// The numbers 0.. with these parents as a tree, each with its line: the
/// parent comes first, then what is under it. A deep one is a list in order.
pub fn tree(name: &str, parents: &[u8]) -> Vec<(usize, String)> {
    if depth(parents) > DEEPEST {
        return list(name, parents);
    }
    let mut lines = Vec::new();
    if !parents.is_empty() {
        lines.push((0, format!("{name} 0")));
        branches(name, parents, 0, "", &mut lines);
    }
    lines
}

/// What is under this number.
fn branches(
    name: &str,
    parents: &[u8],
    number: usize,
    prefix: &str,
    lines: &mut Vec<(usize, String)>,
) {
    let children: Vec<usize> = parents
        .iter()
        .enumerate()
        .skip(1)
        .filter(|(_, parent)| usize::from(**parent) == number)
        .map(|(child, _)| child)
        .collect();
    let last = children.last().copied();
    for child in children {
        let (branch, below) = if Some(child) == last {
            ("└─ ", "   ")
        } else {
            ("├─ ", "│  ")
        };
        lines.push((child, format!("{prefix}{branch}{name} {child}")));
        let prefix = format!("{prefix}{below}");
        branches(name, parents, child, &prefix, lines);
    }
}

/// How many numbers stand above the deepest one. A parent has a lower number.
fn depth(parents: &[u8]) -> usize {
    let mut depths: Vec<usize> = Vec::new();
    for parent in parents {
        let above = depths.get(usize::from(*parent));
        depths.push(above.map_or(0, |depth| depth.saturating_add(1)));
    }
    depths.into_iter().max().unwrap_or(0)
}

fn list(name: &str, parents: &[u8]) -> Vec<(usize, String)> {
    let line = |(number, parent): (usize, &u8)| match number {
        0 => (number, format!("{name} {number}")),
        _ => (number, format!("{name} {number}, under {name} {parent}")),
    };
    parents.iter().enumerate().map(line).collect()
}
