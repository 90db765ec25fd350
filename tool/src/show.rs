//! A book shown in the notation, so that it can be made again.

use crate::assemble::assemble;
use crate::book::Book;
use crate::labels::Labels;
use crate::layout::lay_out;
use crate::names::Names;
use crate::print::whole;

/// What stands above a text whose book has other bytes.
const OTHER_BYTES: &str = "-- make gives this book in other cells; show --exact holds them too\n";
/// What stands above a text whose equal parts are laid down once.
const SHARE: &str = "share\n";

/// A book in the notation, its version and the names of its labels above it.
fn written(book: &Book, names: &Names, labels: &Labels) -> String {
    let mut lines = Vec::new();
    if book.version != 1 {
        lines.push(format!("version {}", book.version));
    }
    lines.extend(labels.declared());
    lines.extend(lay_out(&whole(book, names, labels, None), 0).lines);
    lines.join("\n") + "\n"
}

/// Every byte is held: making it again gives the same cells in the same places.
pub fn exact(book: &Book, labels: &Labels) -> String {
    written(book, &Names::of_cells(book), labels)
}

/// What is shared is named, if it is more than one cell. Making it again gives the same term, and the same bytes where the text can say so;
/// where it cannot, a comment says that.
pub fn shown(book: &Book, labels: &Labels) -> String {
    let plain = written(book, &Names::of_shared(book), labels);
    match assemble(&plain, None, false).map(|made| made.book) {
        Ok(again) if again == *book => plain,
        Ok(again) if again.shared().book == *book => format!("{SHARE}{plain}"),
        Ok(again) if same_term(&again, book) => format!("{OTHER_BYTES}{plain}"),
        _ => exact(book, labels),
    }
}

/// Whether two books have the same root, with nothing shared.
pub fn same_term(one: &Book, other: &Book) -> bool {
    one.version == other.version && one.shared().book == other.shared().book
}
