//! The tables, in Markdown.
use crate::race::{Figure, Row};

fn number(value: f64) -> String {
    if value < 10.0 {
        return format!("{value:.2}");
    }
    if value < 100.0 {
        return format!("{value:.1}");
    }
    let whole = format!("{value:.0}");
    let mut grouped = String::new();
    for (i, digit) in whole.chars().enumerate() {
        if i > 0 && (whole.len() - i) % 3 == 0 {
            grouped.push(',');
        }
        grouped.push(digit);
    }
    grouped
}

fn figure(figure: Figure) -> String {
    format!("{} ({})", number(figure.median), number(figure.least))
}

fn size(size: Option<usize>) -> String {
    size.map_or_else(|| "-".into(), |size| size.to_string())
}

pub fn costs(rows: &[Row]) {
    println!("| case | number | ours, ns | C, ns | Rust, ns | Rust by ours | ours by C |");
    println!("|---|---:|---:|---:|---:|---:|---:|");
    for row in rows {
        let figures = [row.ours, row.anchor, row.theirs, row.theirs_by_ours, row.ours_by_anchor].map(figure);
        println!("| {} | {} | {} |", row.name, size(row.size), figures.join(" | "));
    }
}

/// The rows of a case that has several sizes, the least first.
fn families(rows: &[Row]) -> Vec<&[Row]> {
    rows.chunk_by(|a, b| a.name == b.name).filter(|family| family.len() > 1).collect()
}

/// How much more the last row of a family costs than the first, on one side.
fn growth_of(family: &[Row], side: fn(&Row) -> Figure) -> String {
    number(side(&family[family.len() - 1]).least / side(&family[0]).least)
}

pub fn growth(rows: &[Row]) {
    println!("| case | numbers | ours | C | Rust |");
    println!("|---|---|---:|---:|---:|");
    for family in families(rows) {
        let sizes: Vec<String> = family.iter().map(|row| size(row.size)).collect();
        let grown = [|row: &Row| row.ours, |row: &Row| row.anchor, |row: &Row| row.theirs];
        let grown = grown.map(|side| growth_of(family, side));
        println!("| {} | {} | {} |", family[0].name, sizes.join(" / "), grown.join(" | "));
    }
}
