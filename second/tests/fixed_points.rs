//! Each fixed point (P1 to P14).

mod common;

use common::*;
use second::answer::{Pair, Refusal};
use second::site::Stage;
use second::sizes::*;
use second::table::{even, Table};

const T: u64 = (1 << 32) + 1;

/// Q3.9: P1 is for the table 0, 256 and so on to 1,792.
#[test]
fn keys_live_at_their_sites() {
    assert_eq!(even(8), [0, 256, 512, 768, 1_024, 1_280, 1_536, 1_792]);
    let table = Table::start(8, &even(8)).unwrap();
    assert_eq!([255, 256, 2_047].map(|key| table.site_of(key)), [Some(1), Some(2), Some(8)]);
    let mut site = site(8, 1);
    site.begin(HOUSE).unwrap();
    assert_eq!(site.read(T, 2_048), Err(Refusal::Impossible));
}

#[test]
fn first_serials() {
    assert_eq!(site(2, 1).begin(HOUSE), Ok(4_294_967_297));
    assert_eq!(site(2, 2).begin(HOUSE), Ok(8_589_934_593));
}

#[test]
fn pairs_are_ordered_by_number_then_coordinator() {
    assert!(Pair::new(16_777_216, 2) < Pair::new(16_777_217, 1));
    assert!(Pair::new(7, 1) < Pair::new(7, 2));
}

#[test]
fn sites_1_and_3_make_mask_5() {
    assert_eq!(site_bit(1) | site_bit(3), 5);
}

#[test]
fn the_queue_installs_its_least_if_decided() {
    let mut both = site(2, 1);
    both.clock = 4;
    let other = (2 << 32) + 1;
    both.live.push(queued(T, Stage::Decided { number: 4 }));
    both.live.push(queued(other, Stage::Open { mark: 4 }));
    assert_eq!(both.install(&mut buffer()).unwrap().pair, Pair::new(4, 1));
    let mut open = site(2, 1);
    open.clock = 4;
    open.live.push(queued(T, Stage::Open { mark: 4 }));
    open.live.push(queued(other, Stage::Decided { number: 4 }));
    refused(&open, 57, 17, |site, out| site.install(out));
}

#[test]
fn state_numbers() {
    let mut one = site(2, 1);
    one.clock = 9;
    assert_eq!(one.report(&mut buffer()).unwrap().state, 9);
    one.live.push(queued(T, Stage::Open { mark: 6 }));
    one.live.push(queued(T + 1, Stage::Decided { number: 6 }));
    assert_eq!(one.report(&mut buffer()).unwrap().state, 5);
    one.live.push(queued(T + 2, Stage::Decided { number: 0 }));
    assert_eq!(one.report(&mut buffer()).unwrap().state, 0);
}

#[test]
fn a_snapshot_reads_its_version_and_may_not_overwrite_a_newer_one() {
    let mut one = site(1, 1);
    one.installs = 3;
    one.serial = 10;
    for (install, value) in [(1, 60), (2, 70), (3, 0)] {
        let writes = if value == 0 { vec![] } else { vec![(5, value)] };
        one.history.push_back(installed(install, T + install, &writes));
    }
    let late = one.begin(HOUSE).unwrap();
    one.installs = 4;
    one.history.push_back(installed(4, T + 4, &[(5, 80)]));
    assert_eq!(one.read(late, 5), Ok(bare(70)));
    refused(&one, 0, 10, |site, _| site.write(late, 5, bare(1)));
}

#[test]
fn a_state_at_the_heads_number_makes_it_due() {
    let mut merger = merger(2);
    merger.merge(&[9, 1, 1, 5, 1, T, 1, 0, 0]).unwrap();
    merger.merge(&[9, 2, 2, 4, 0, 0, 0, 0, 0]).unwrap();
    assert_eq!(merger.emit(&mut buffer()).unwrap_err().number(), 17);
    merger.merge(&[9, 2, 2, 5, 0, 0, 0, 0, 0]).unwrap();
    let mut out = vec![8; 393];
    let emitted = merger.emit(&mut out).unwrap();
    assert_eq!((emitted.pair, emitted.transaction, emitted.words), (Pair::new(5, 1), T, 9));
    assert_eq!(out[..10], [9, 3, 0, 5, 1, T, 1, 0, 0, 8]);
}

#[test]
fn common_reads_alone_are_not_dependent() {
    let reader = footprint(&[1, 2, 3], &[]);
    let writer = footprint(&[1], &[(9, 0)]);
    assert!(!reader.depends(&writer) && !writer.depends(&reader));
    let other = footprint(&[9], &[]);
    assert!(writer.depends(&other) && other.depends(&writer));
    assert!(writer.depends(&footprint(&[], &[(9, 1)])));
}

#[test]
fn a_buffer_of_7966_passes_and_one_of_7965_does_not() {
    let mut one = site(1, 1);
    one.begin(HOUSE).unwrap();
    refused(&one, 7_965, 1, |site, out| site.commit(T, out));
    assert!(one.commit(T, &mut vec![0; 7_966]).is_ok());
    refused(&one, 56, 1, |site, out| site.install(out));
    assert!(one.install(&mut vec![0; 57]).is_ok());
    assert_eq!((SEND_BUFFER, PART_BUFFER, MERGED_BUFFER), (7_966, 57, 393));
}

#[test]
fn sixteen_keys_pass() {
    let mut one = site(1, 1);
    one.begin(HOUSE).unwrap();
    for key in (0..16).rev() {
        one.read(T, key).unwrap();
        one.write(T, key, bare(key + 100)).unwrap();
    }
    refused(&one, 0, 11, |site, _| site.read(T, 16));
    refused(&one, 0, 11, |site, _| site.write(T, 16, bare(1)));
    assert_eq!(one.read(T, 15), Ok(bare(115)));
    one.commit(T, &mut buffer()).unwrap();
    let mut out = vec![0; 57];
    assert_eq!(one.install(&mut out).unwrap().words, 57);
    let keys: Vec<u64> = out[9..].iter().step_by(3).copied().collect();
    assert_eq!(keys, (0..16).collect::<Vec<_>>());
}
