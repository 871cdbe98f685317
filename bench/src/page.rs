//! A page of the documents whose tables are filled in by a run.

use std::fs;
use std::io;
use std::path::Path;

/// Puts a text between the lines `<!-- NAME -->` and `<!-- end of NAME -->` of a page.
pub fn fill(page: &Path, name: &str, text: &str) -> io::Result<()> {
    let old = fs::read_to_string(page)?;
    let new = filled(&old, name, text);
    let new = new.ok_or_else(|| io::Error::other(format!("{}: no place for {name}", page.display())))?;
    fs::write(page, new)
}

fn filled(page: &str, name: &str, text: &str) -> Option<String> {
    let (first, last) = (format!("<!-- {name} -->\n"), format!("<!-- end of {name} -->\n"));
    let (before, rest) = page.split_once(&first)?;
    let (_, behind) = rest.split_once(&last)?;
    Some(format!("{before}{first}{text}{last}{behind}"))
}
