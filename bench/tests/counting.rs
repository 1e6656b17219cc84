//! Library and peer count the symbols of the bench alike, and about half of the bits are wrong or none.

use bench::counting::{CountRead, Counting, Wrong};
use bench::peer;

const BOTH: [CountRead; 2] = [clevisroot_sys::tally_read, peer::tally_read];

#[test]
fn library_and_peer_agree_on_every_length() {
    for bytes in (0..600).chain([1000, 7680, 7681]) {
        assert!(Counting::new(bytes, Wrong::Half).agree(BOTH));
        assert!(Counting::new(bytes, Wrong::Nothing).agree(BOTH));
    }
}

#[test]
fn bits_are_wrong_as_the_workload_says() {
    let wrong_bits = |wrong| {
        let mut counting = Counting::new(1000, wrong);
        let symbols = 0..counting.cycle();
        let bits = symbols.map(|_| counting.count(peer::tally_read).tally.wrong_bits);
        bits.sum::<u32>() / counting.cycle() as u32
    };
    assert!((3800..4200).contains(&wrong_bits(Wrong::Half)));
    assert_eq!(wrong_bits(Wrong::Nothing), 0);
}
