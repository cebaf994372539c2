//! Every read of an overlay, as both sides hold it.

use super::both::Both;
use super::call::Call;
use crate::answer::KINDS;
use crate::random::Random;

/// How many ids, numbers and handles are read of a long list.
const SOME: usize = 24;

/// So many of a list at most, drawn where there are more.
fn some_of<T: Copy>(random: &mut Random, list: &[T]) -> Vec<T> {
    if list.len() <= SOME {
        return list.to_vec();
    }
    (0..SOME).map(|_| *random.pick(list)).collect()
}

/// Every read by number, by id and by handle, past the lists too, and of numbers that mean no kind; of
/// long lists some.
pub fn every_read(both: &mut Both<'_>) -> Result<(), String> {
    let mut random = Random::new(1);
    let mut reads = vec![Call::IsEmpty, Call::IsSound];
    for kind in 0..3 {
        let (mut ids, deleted) = both.rust.overlay.sorted_ids(KINDS[usize::from(kind)]);
        let (live, gone) = (ids.len() as u64, deleted.len() as u64);
        let numbers: Vec<u64> = (0..live.max(gone)).collect();
        let past = [live, gone, live + 1, 1 << 32, u64::MAX];
        for n in some_of(&mut random, &numbers).into_iter().chain(past) {
            reads.extend([Call::LiveId(kind, n), Call::DeletedId(kind, n)]);
            reads.push(Call::Record(kind, n));
        }
        for size in [ids.len(), ids.len() + 2, ids.len().saturating_sub(1), deleted.len(), 0] {
            reads.extend([Call::LiveIds(kind, size), Call::DeletedIds(kind, size)]);
        }
        ids.extend(deleted);
        let mut ids = some_of(&mut random, &ids);
        for n in 0..ids.len() {
            ids.extend([ids[n].wrapping_neg(), ids[n].wrapping_add(1)]);
        }
        ids.extend([0, -1, 1, i64::MIN, i64::MAX]);
        ids.sort_unstable();
        ids.dedup();
        for id in ids {
            reads.extend([Call::Get(kind, id), Call::Has(kind, id)]);
            reads.extend([Call::IsDeleted(kind, id), Call::KnownVersion(kind, id)]);
        }
    }
    for kind in [0, 1, 2, 3, 128, 255] {
        reads.extend([Call::LiveCount(kind), Call::DeletedCount(kind)]);
        reads.extend([Call::LiveId(kind, 0), Call::DeletedId(kind, 0), Call::Record(kind, 0)]);
        reads.extend([Call::Get(kind, 1), Call::Has(kind, 1), Call::IsDeleted(kind, 1)]);
        reads.extend([Call::KnownVersion(kind, 1), Call::LiveIds(kind, 9), Call::DeletedIds(kind, 0)]);
    }
    let texts = both.rust.texts();
    let held: Vec<u64> = (0..texts).collect();
    let past = [texts, texts + 1, texts + (1 << 32), 1 << 63, u64::MAX];
    reads.extend(some_of(&mut random, &held).into_iter().chain(past).map(Call::Text));
    for read in reads {
        both.read(&read)?;
    }
    Ok(())
}

/// The listing too.
pub fn everything(both: &mut Both<'_>) -> Result<(), String> {
    every_read(both)?;
    both.listing()
}

/// The listing alone.
pub fn the_listing(both: &mut Both<'_>) -> Result<(), String> {
    both.listing()
}

/// Nothing more.
pub fn nothing(_: &mut Both<'_>) -> Result<(), String> {
    Ok(())
}
