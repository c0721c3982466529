//! `yay rows`: the table of rows, one to a line.

use crate::outline::{broken, text};
use crate::stop::Done;
use std::io::Write;
use yay::{Kind, Row, Tree, NAMES};

pub fn write(tree: &Tree, out: &mut dyn Write) -> Done {
    write!(out, "  row")?;
    for name in NAMES {
        write!(out, " {name:>6}")?;
    }
    writeln!(out)?;
    for row in (0..tree.rows()).map(Row) {
        write!(out, "{:>5}", row.0)?;
        for word in tree.words(row).map_err(broken)? {
            write!(out, " {word:>6}")?;
        }
        let kind = tree.kind(row).map_err(broken)?;
        match kind {
            Kind::Null | Kind::False | Kind::True | Kind::Array | Kind::Object => writeln!(out, "  {}", kind.name())?,
            _ => writeln!(out, "  {} {}", kind.name(), text(kind, tree.text(row).map_err(broken)?))?,
        }
    }
    Ok(())
}
