// The expected words were computed apart from this code, by `arena_lab/rules/chacha8.py`, after the definition of
// ChaCha: eight rounds, words 12 and 13 the number of the block, words 14 and 15 the stream. Of a seed of
// zeros on stream 0 they begin 3e00ef2f 895f40d6 7f5bb8e8, which was remembered and not looked up.
use bhs_deliveries::{Dealer, pick};
use std::process::Abort;

mod links;
mod matches;
mod timeliness;

fn expect_words(rt: &impl Abort, dealer: &mut Dealer, expected: &[u32]) {
    for word in expected {
        assert_eq!(rt; dealer.next(), *word);
    }
}

#[test]
fn equal_dealers_give_equal_words(rt: HostRuntime) {
    let mut one = Dealer::new([5; 32], 12);
    let mut other = Dealer::new([5; 32], 12);
    for _ in 0..200 {
        assert_eq!(rt; one.next(), other.next());
    }
}

#[test]
fn a_seed_of_zeros_on_two_streams(rt: HostRuntime) {
    let words = [
        0x2fef003e, 0xd6405f89, 0xe8b85b7f, 0xa1a5091f, 0xc30e842c, 0x3b7f9ace, 0x88e11b18,
        0x1e1a71ef,
    ];
    expect_words(&rt, &mut Dealer::new([0; 32], 0), &words);
    let words = [
        0xb34b8f2b, 0xca068379, 0x7cd43051, 0xd14e8d4f, 0xcceda03a, 0x4269bec1, 0xecae0f09,
        0x9b59d7a0,
    ];
    expect_words(&rt, &mut Dealer::new([0; 32], 1), &words);
}

#[test]
fn both_halves_of_the_stream_count(rt: HostRuntime) {
    let words = [0xcb0cb1b4, 0x3de71c55, 0x97ec7b21, 0xe2740ad5];
    expect_words(&rt, &mut Dealer::new([0; 32], u64::MAX), &words);
}

#[test]
fn the_seed_is_read_in_order(rt: HostRuntime) {
    let seed = [
        0, 1, 2, 3, 4, 5, 6, 7, 8, 9, 10, 11, 12, 13, 14, 15, 16, 17, 18, 19, 20, 21, 22, 23, 24,
        25, 26, 27, 28, 29, 30, 31,
    ];
    let words = [0x97b6ea26, 0xc145aca9, 0x3ab8edd9, 0xb000207e];
    expect_words(&rt, &mut Dealer::new(seed, 3), &words);
}

#[test]
fn words_on_both_sides_of_a_block(rt: HostRuntime) {
    let mut dealer = Dealer::new([7; 32], 3);
    let first = [0xe7e49f55, 0x2052a131, 0xfc4e5022, 0x728ebf7a];
    expect_words(&rt, &mut dealer, &first);
    for _ in 4..15 {
        dealer.next();
    }
    expect_words(&rt, &mut dealer, &[0xbe84cd86, 0x99359768, 0x135d7a4a]);
    for _ in 18..63 {
        dealer.next();
    }
    expect_words(&rt, &mut dealer, &[0x967c8b73, 0xd63a741d, 0x701c9859]);
}

#[test]
fn a_word_picks_modulo_the_length(rt: HostRuntime) {
    let pool = ["ka", "kb", "kc"];
    let picks = [(0, 0), (2, 2), (3, 0), (7, 1), (u32::MAX, 0)];
    for (word, place) in picks {
        assert_eq!(rt; pick(&pool, word), Some(place));
    }
    assert_eq!(rt; pick::<u8>(&[], 7), None);
    assert_eq!(rt; pick(&[(), ()], 7), Some(1));
}

#[test]
fn delays_have_streams_of_their_own(rt: HostRuntime) {
    let zeros = Dealer::new([0; 32], 0);
    assert_eq!(rt;
        (zeros.delay_word(0, 0), zeros.delay_word(1, 0)),
        (0x67bd2fb6, 0x78dcb1f2)
    );
    let sevens = Dealer::new([7; 32], 3);
    assert_eq!(rt;
        (sevens.delay_word(0, 15), sevens.delay_word(63, 16)),
        (0xc5c434c7, 0xfc52fa79)
    );
}
