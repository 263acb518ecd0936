//! The self-check with few inputs; a debug build finds overflows too.

use bench::diff::Amounts;

#[test]
fn cases() {
    assert!(bench::cases::run(&Amounts { samples: 400, lists: 20, states: 5000 }));
}
