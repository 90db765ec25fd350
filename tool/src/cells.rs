//! A book cell by cell: a table, and a graph for Graphviz. Both show any bytes, also those that are no book.

use crate::book::{field, Book, Part, CELL, TRAILER};
use crate::kinds::{Datum, Sort};
use std::fmt::Write;

/// Bytes in hexadecimal.
pub fn hexadecimal(bytes: &[u8]) -> String {
    bytes.iter().map(|byte| format!("{byte:02X}")).collect::<Vec<_>>().join(" ")
}

/// What a part is, by the table of kinds, without its references.
fn what(part: &Part) -> String {
    let (name, datum) = (part.kind.row().name, part.datum);
    match part.kind.row().datum {
        Datum::None => name.to_owned(),
        Datum::Label => format!("{name}, label {datum}"),
        Datum::Skipped => format!("{name}, skips {datum}"),
        Datum::Number => format!("{name} {datum}"),
    }
}

/// What a cell is, with its references.
fn described(row: &[u8], version: u8) -> String {
    let Some(part) = Part::read(row, version) else {
        return format!("unknown kind {}", row[0]);
    };
    let named = part.children().iter().zip(part.kind.row().references).map(|(cell, (_, name))| format!("{name} {cell}"));
    let named: Vec<String> = named.collect();
    let gap = if named.is_empty() { "" } else { ": " };
    format!("{}{gap}{}", what(&part), named.join(", "))
}

/// What the last 8 bytes say, if they begin as a trailer does.
pub fn trailer(row: &[u8]) -> String {
    match row[0] {
        TRAILER => format!("trailer: version {}, cells {}, root {}", row[1], field(row, 0), field(row, 1)),
        _ => "no trailer".into(),
    }
}

/// The cells and the trailer, 8 bytes each, and what is behind them. The version is the trailer's, where that is one.
fn rows(bytes: &[u8]) -> (Vec<&[u8]>, &[u8], &[u8], u8) {
    let whole = bytes.len() / CELL * CELL;
    let (rows, rest) = bytes.split_at(whole);
    let mut rows: Vec<&[u8]> = rows.chunks_exact(CELL).collect();
    let trailer = rows.pop().unwrap_or(&[]);
    let version = trailer.get(1).copied().unwrap_or(1);
    (rows, trailer, rest, version)
}

/// One line of the table.
pub fn line(bytes: &[u8], cell: usize) -> Option<String> {
    let (rows, _, _, version) = rows(bytes);
    Some(row_line(cell, rows.get(cell)?, version))
}

fn row_line(cell: usize, row: &[u8], version: u8) -> String {
    format!("{cell:>5}  {}  {}", hexadecimal(row), described(row, version))
}

/// The whole table.
pub fn table(bytes: &[u8]) -> String {
    let (rows, last, rest, version) = rows(bytes);
    let book = Book::read(bytes);
    let reached = book.as_ref().map(Book::reached);
    let mut table = format!("{:>5}  {:23}  {}\n", "cell", "bytes", "what it is");
    for (cell, row) in rows.into_iter().enumerate() {
        let note = match (&book, &reached) {
            (Some(book), _) if book.root == cell => ", the root",
            (_, Some(reached)) if !reached[cell] => ", not reached from the root",
            _ => "",
        };
        writeln!(table, "{}{note}", row_line(cell, row, version)).ok();
    }
    if !last.is_empty() {
        writeln!(table, "{:>5}  {}  {}", "", hexadecimal(last), trailer(last)).ok();
    }
    if !rest.is_empty() {
        writeln!(table, "{:>5}  {:23}  no whole row of 8 bytes", "", hexadecimal(rest)).ok();
    }
    table
}

/// A graph for Graphviz: a node a cell, types as boxes, an edge a reference; what the root does not reach is dashed.
pub fn graph(book: &Book) -> String {
    let reached = book.reached();
    let mut graph = String::from("digraph book {\n  ordering=out;\n");
    for (at, part) in book.parts.iter().enumerate() {
        let shape = if part.sort() == Sort::Type { ", shape=box" } else { "" };
        let style = match (at == book.root, reached[at]) {
            (true, _) => ", style=bold",
            (_, false) => ", style=dashed",
            _ => "",
        };
        writeln!(graph, "  c{at} [label=\"{at}: {}\"{shape}{style}];", what(part)).ok();
        let edges = part.children().iter().zip(part.kind.row().references);
        graph.extend(edges.map(|(child, (_, name))| format!("  c{at} -> c{child} [label=\"{name}\"];\n")));
    }
    graph + "}\n"
}
