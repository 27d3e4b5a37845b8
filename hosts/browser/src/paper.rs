//! How many pages a printed document has.

/// The number of pages of a PDF file. It is read twice, from the pages themselves and from the count at the top of their tree.
pub fn pages(file: &[u8]) -> Result<usize, String> {
    if !file.starts_with(b"%PDF-") {
        return Err("the browser prints what is no PDF file".to_string());
    }
    let text = String::from_utf8_lossy(file);
    let objects = || text.split("endobj").map(dictionary);
    let leaves = objects().filter(|object| is_of_type(object, "/Page"));
    let trees = objects().filter(|object| is_of_type(object, "/Pages"));
    let (leaves, stated) = (leaves.count(), trees.filter_map(count).max());
    match stated {
        Some(stated) if stated == leaves && leaves > 0 => Ok(leaves),
        _ => Err(format!(
            "the browser prints a PDF file with {leaves} pages, and the tree of its pages counts {stated:?}"
        )),
    }
}

/// An object without its stream.
fn dictionary(object: &str) -> &str {
    object.split("stream").next().unwrap_or_default()
}

/// What stands behind a key, up to the next space or sign.
fn behind<'a>(object: &'a str, key: &str) -> Option<&'a str> {
    let (_, rest) = object.split_once(key)?;
    let rest = rest.trim_start();
    let is_end = |letter: char| letter.is_whitespace() || "<>[]()".contains(letter);
    rest.split(is_end).next()
}

fn is_of_type(object: &str, kind: &str) -> bool {
    behind(object, "/Type ").is_some_and(|found| found == kind)
}

fn count(object: &str) -> Option<usize> {
    behind(object, "/Count ")?.parse().ok()
}

#[cfg(test)]
mod tests {
    use super::pages;

    #[test]
    fn pages_are_counted_without_the_nodes_of_their_tree() {
        let file = b"%PDF-1.4\n1 0 obj\n<</Type /Page\n/Parent 3 0 R>>\nendobj\n2 0 obj\n<</Type /Page\n/Parent 3 0 R>>\nendobj\n\
            3 0 obj\n<</Type /Pages\n/Count 2\n/Kids [1 0 R 2 0 R]>>\nendobj\n4 0 obj\n<</Length 11>> stream\n/Type /Page\nendstream\nendobj\n";
        assert_eq!(pages(file), Ok(2));
    }

    #[test]
    fn a_file_whose_counts_differ_is_refused() {
        let file =
            b"%PDF-1.4\n1 0 obj\n<</Type /Page>>\nendobj\n3 0 obj\n<</Type /Pages\n/Count 2>>\nendobj\n";
        let fault = pages(file).expect_err("the counts differ");
        assert!(fault.contains("with 1 pages"), "{fault}");
        assert!(pages(b"<html>").is_err());
    }
}
