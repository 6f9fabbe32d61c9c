//! What more than one of the tests says of files that are refused.

use reference::compiler::compile;
use reference::cumulative::export;
use reference::listing::lister;
use reference::matrix::{check, read};
use reference::walk::{spent, walk};
use reference::wanted::string_for;

/// Every operation that takes a matrix file refuses this one so, with nothing else in order.
#[track_caller]
pub fn matrix_is_refused(file: &[u8], number: u32) {
    assert_eq!(check(file), Err(number));
    assert_eq!(read(file, 0), Err(number));
    assert_eq!(walk(file, &[]), Err(number));
    assert_eq!(spent(file, &[]), Err(number));
    assert_eq!(compile(file, 0), Err(number));
    assert_eq!(export(file, 0), Err(number));
    assert_eq!(string_for(file, usize::MAX, 0), Err(number));
    assert_eq!(lister(file), format!("refused {number}\n"));
}
