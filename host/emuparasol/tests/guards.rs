//! The guards of these tests notice a single element written.

mod common;

use common::Guarded;

#[test]
fn every_guard_element_counts() {
    let list = [1_u8, 2, 3];
    let size = Guarded::new(&list, 9).whole().len();
    for place in 0..size {
        let mut lent = Guarded::new(&list, 9);
        lent.whole()[place] ^= 1;
        let noticed = std::panic::catch_unwind(|| lent.same(&list)).is_err();
        assert!(noticed, "place {place}");
    }
    let mut lent = Guarded::new(&list, 9);
    lent.lent()[1] = 7;
    assert_eq!(lent.back(), [1, 7, 3]);
}
