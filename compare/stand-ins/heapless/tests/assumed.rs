//! What lib.rs says is assumed of the real crate.

use heapless::Vec;

#[test]
fn full_and_swapped() {
    let mut some: Vec<u8, 3> = Vec::new();
    for item in [1, 2, 3] {
        assert_eq!(some.push(item), Ok(()));
    }
    assert_eq!(some.push(4), Err(4));
    assert_eq!(some.swap_remove(0), 1);
    assert_eq!(some[..], [3, 2]);
    assert_eq!(some.push(5), Ok(()));
    assert!(some.into_iter().eq([3, 2, 5]));
}
