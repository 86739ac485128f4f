//! Document 02's S-7 read from its text: the image with a variable renamed.

use super::checks::occurrences;
use super::tests::sizes;
use super::walk::{Rows, Walk};

/// "a new image that differs only in that the name words of the IdentTerm nodes under that binding's occurrences are that
/// number"
fn new_image(image: &[u8], list: &[(u32, u32)], binding: u32, name: u32) -> Vec<u8> {
    let rows = Rows::new(image);
    let mut new = image.to_vec();
    for &(node, _) in list.iter().filter(|row| row.1 == binding) {
        let ident = rows.ident(node).expect("an ident under an occurrence");
        let at = rows.offset(ident, 0);
        new[at..at + 4].copy_from_slice(&name.to_le_bytes());
    }
    new
}

/// The new image, or 19 to 21, for an image with this occurrence list.
pub fn renamed(image: &[u8], list: &[(u32, u32)], binding: u32, name: u32) -> Result<Vec<u8>, u32> {
    if list.iter().all(|row| row.1 != binding) {
        return Err(19);
    }
    if name as usize >= sizes(image).s {
        return Err(20);
    }
    let new = new_image(image, list, binding, name);
    // "exactly if the new image's occurrence list equals the old one row by row"
    match Walk::new(&new).module() {
        Ok(resolved) if occurrences(&resolved).concat() == list => Ok(new),
        _ => Err(21),
    }
}
