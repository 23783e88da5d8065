//! Samples by their names, for the worked examples and the litmus table.

macro_rules! sample {
    ($name:literal) => {
        include_bytes!(concat!("../../../samples/", $name, ".rec"))
    };
}
pub(crate) use sample;

macro_rules! named {
    ($($name:literal),* $(,)?) => {
        &[$(($name, sample!($name))),*]
    };
}

const NAMED: &[(&str, &[u8])] = named![
    "message_passing_with_both_fences",
    "message_passing_with_dmb_sy_addr_link_and_isb",
    "message_passing_with_dmb_sy_and_ctrl_link",
    "message_passing_with_dmb_sy_and_isb",
    "message_passing_with_dmb_sy_ctrl_link_and_isb",
    "newer_value_read_before_older",
    "release_and_acquire_with_stale_read",
    "store_buffering_with_forwarding",
    "store_buffering_with_pairs",
    "store_buffering_with_release_and_acquire",
    "store_buffering_with_sc_fences",
    "strong_release_pair_before_a_write",
    "two_pairs_both_reading_the_initial_write",
    "worked_example",
];

/// The bytes of a sample that is in the list.
pub fn sample_named(name: &str) -> Option<Vec<u8>> {
    NAMED.iter().find(|sample| sample.0 == name).map(|sample| sample.1.to_vec())
}
