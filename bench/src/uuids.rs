//! Lists of keys, of the hall and of organisers: ordinary ones, and ones constructed against the store's check that no
//! key stands twice.
use harness::book::Key;
use harness::gen::Rng;
use harness::plain::Uuid;

/// Lists of one kind: of that many keys, another one for each seed.
pub struct Family {
    pub name: &'static str,
    pub list: fn(usize, u64) -> Vec<Key>,
}

/// The hall's keys.
pub fn hall(uuids: Vec<Uuid>) -> Vec<Key> {
    uuids.into_iter().map(|u| (0, u)).collect()
}

pub const ORDINARY: [Family; 3] = [
    Family { name: "pads", list: |n, seed| hall(pads(n, seed)) },
    Family { name: "random", list: |n, seed| hall(random(n, seed)) },
    Family { name: "ascending", list: |n, seed| hall(ascending(n, seed)) },
];

pub const CONSTRUCTED: [Family; 6] = [
    Family { name: "one bucket", list: |n, seed| hall(one_bucket(n, seed, multiple)) },
    Family { name: "one bucket, first halves alike", list: |n, seed| hall(one_bucket(n, seed, |_| 0)) },
    Family { name: "long chains", list: |n, seed| hall(long_chains(n, seed)) },
    Family { name: "long chains, one too long", list: |n, seed| hall(too_long(n, seed, multiple)) },
    Family { name: "long chains, one too long, first halves alike", list: |n, seed| hall(too_long(n, seed, |_| 0)) },
    Family { name: "one bucket, the last UUID twice", list: |n, seed| hall(twice(n, seed)) },
];

/// Besides, against the buckets of an index of more than 65535 bytes.
pub const LARGE: [Family; 4] = [
    Family { name: "one bucket, 32 sums", list: |n, seed| hall(one_of_many(n, seed)) },
    Family { name: "long chains, far apart", list: |n, seed| hall(far_chains(n, seed)) },
    Family { name: "long chains, far apart, one too long", list: |n, seed| hall(far_too_long(n, seed)) },
    Family { name: "one sum, many halves", list: |n, seed| hall(one_sum(n, seed)) },
];

/// Against the search tree of an insert, whose paths go by the bits of a key.
pub const PATHS: [Family; 4] = [
    Family { name: "one bucket, then ends alike", list: |n, seed| hall(alike(n, seed, |bit| bit)) },
    Family { name: "one bucket, then paths alike", list: |n, seed| hall(alike(n, seed, |bit| (bit + 64) % 128)) },
    Family { name: "one bucket, then one long path", list: |n, seed| hall(long_paths(n, seed, 16)) },
    Family { name: "one bucket, then long paths", list: |n, seed| hall(long_paths(n, seed, 8)) },
];

/// Lists that name a UUID more than once, for inserts.
pub const REPEATED: [Family; 2] = [
    Family { name: "one bucket, each UUID twice", list: |n, seed| hall(again(&one_bucket(n / 2, seed, multiple), n)) },
    Family { name: "one UUID over and over", list: |n, seed| hall(again(&random(1, seed), n)) },
];

/// Organisers' lines, whose records have 22 bytes.
pub const SHARED: [Family; 2] = [
    Family { name: "each pad of 255 organisers", list: |n, seed| shared(n, &pads(n / OWNERS + 1, seed)) },
    Family { name: "each random UUID of 255 organisers", list: |n, seed| shared(n, &random(n / OWNERS + 1, seed)) },
];

pub const SHARED_CONSTRUCTED: [Family; 1] = [Family { name: "one bucket, 255 organisers", list: one_bucket_shared }];

/// The same whatever the number of buckets.
pub const SHARED_LARGE: [Family; 1] = [Family { name: "one sum, 255 organisers", list: one_sum_shared }];

const OWNERS: usize = 255;

fn owner(k: usize) -> u8 {
    (1 + k % OWNERS) as u8
}

/// Each UUID in turn under every owner.
fn shared(n: usize, uuids: &[Uuid]) -> Vec<Key> {
    (0..n).map(|k| (owner(k), uuids[k / OWNERS])).collect()
}

/// As SDL makes them: bus, vendor, product and version, low byte first, each followed by two zeros.
pub fn pads(n: usize, seed: u64) -> Vec<Uuid> {
    let mut r = Rng::new(1000 + seed);
    let vendors: Vec<u16> = (0..n / 12 + 1).map(|_| r.next() as u16).collect();
    (0..n)
        .map(|i| {
            let mut u = [0; 16];
            u[0] = if r.one_in(3) { 5 } else { 3 };
            u[4..6].copy_from_slice(&vendors[i / 12].to_le_bytes());
            u[8..10].copy_from_slice(&(i as u16).wrapping_mul(37).to_le_bytes());
            u[12..14].copy_from_slice(&[0x11, 1]);
            u
        })
        .collect()
}

/// Any half of a UUID.
fn half(r: &mut Rng) -> u64 {
    r.next() << 11 ^ r.next()
}

/// Version 4, as a generator makes them.
pub fn random(n: usize, seed: u64) -> Vec<Uuid> {
    let mut r = Rng::new(2000 + seed);
    (0..n).map(|_| halves(half(&mut r), half(&mut r))).collect()
}

fn ascending(n: usize, seed: u64) -> Vec<Uuid> {
    (0..n as u128).map(|k| (seed as u128 * n as u128 + k).to_be_bytes()).collect()
}

/// The UUID whose first and last eight bytes are these numbers, high byte first.
fn halves(high: u64, low: u64) -> Uuid {
    ((high as u128) << 64 | low as u128).to_be_bytes()
}

// What the lists aim at: the store puts a key into one of 4096 buckets, (31 high + low + 7919 owner) mod 65449 mod 4096,
// where the sum wraps at 64 bits, compares it with at most 17 of its bucket, and sorts all where a bucket has more. Where
// the index has more than 65536 bytes there are 8192 to 65535 buckets, by the same sum. An insert compares a key with at
// most 17 of its bucket too; where one has more, it puts all keys into a tree, three bits a step: those of
// the first half, then of the second, each from the last bit on. A key that is in a chain is compared by its tag first,
// the first 16 bits of the sum, and by its row only where the tags are alike.
const PRIME: u64 = 65449;
const OWNER: u64 = 7919;
const CHAIN: usize = 18;

/// A multiple of 65449, of any size below 2 to the 57th: no sum of such halves wraps.
fn multiple(r: &mut Rng) -> u64 {
    PRIME * (r.next() >> 12)
}

/// All in bucket 0: the sort, at once. Where first halves are alike, each comparison has to look at both.
fn one_bucket(n: usize, seed: u64, first: fn(&mut Rng) -> u64) -> Vec<Uuid> {
    let mut r = Rng::new(3000 + seed);
    (0..n).map(|_| halves(first(&mut r), multiple(&mut r))).collect()
}

/// All in bucket 0, whatever their owners.
fn one_bucket_shared(n: usize, seed: u64) -> Vec<Key> {
    let mut r = Rng::new(5000 + seed);
    let rest = |o: u8| PRIME - OWNER * o as u64 % PRIME;
    (0..n).map(|k| (owner(k), halves(multiple(&mut r), multiple(&mut r) + rest(owner(k))))).collect()
}

/// The store is damaged: look-ups refuse it, at the end of the sort.
fn twice(n: usize, seed: u64) -> Vec<Uuid> {
    let mut u = one_bucket(n - 1, seed, multiple);
    u.extend(u.last().copied());
    u
}

/// As many as can be in each bucket: each UUID is compared with all before it there, and nothing is sorted.
fn long_chains(n: usize, seed: u64) -> Vec<Uuid> {
    chains(n, n.div_ceil(CHAIN), 1, seed, multiple)
}

/// The same, and one more in the first bucket at the end: all the comparisons, and then the sort.
fn too_long(n: usize, seed: u64, first: fn(&mut Rng) -> u64) -> Vec<Uuid> {
    let mut u = chains(n - 1, (n - 1).div_ceil(CHAIN), 1, seed, first);
    u.push(halves(0, 0));
    u
}

/// Chains in so many buckets, which lie that far apart. All have one tag, so that each step compares rows.
fn chains(n: usize, buckets: usize, apart: u64, seed: u64, first: fn(&mut Rng) -> u64) -> Vec<Uuid> {
    let mut r = Rng::new(4000 + seed);
    let sum = |k: usize| PRIME * (seed << 20 | k as u64 + 1) + apart * (k % buckets) as u64;
    let low = |k: usize, high: u64| sum(k).wrapping_sub(high.wrapping_mul(31));
    let one = |k: usize| {
        let high = first(&mut r);
        halves(high, low(k, high))
    };
    (0..n).map(one).collect()
}

/// Long chains all over 65449 of the 65535 buckets, so that each step is far from the one before.
fn far_chains(n: usize, seed: u64) -> Vec<Uuid> {
    let buckets = n.div_ceil(CHAIN);
    chains(n, buckets, (PRIME - 1) / buckets as u64, seed, multiple)
}

fn far_too_long(n: usize, seed: u64) -> Vec<Uuid> {
    let mut u = far_chains(n - 1, seed);
    u.push(halves(0, 0));
    u
}

/// The halves of a UUID whose sum, 31 high + low, is that number.
fn of_sum(r: &mut Rng, sum: u64) -> Uuid {
    let high = (sum / 31).min(PRIME - 1);
    halves(multiple(r) + high, multiple(r) + sum - 31 * high)
}

/// All in bucket 0, by 32 sums that are multiples of 65449.
fn one_of_many(n: usize, seed: u64) -> Vec<Uuid> {
    let mut r = Rng::new(6000 + seed);
    (0..n).map(|k| of_sum(&mut r, PRIME * (k % 32) as u64)).collect()
}

/// All of one sum, and so in one bucket however many there are, and no half a multiple of 65449.
fn one_sum(n: usize, seed: u64) -> Vec<Uuid> {
    let mut r = Rng::new(7000 + seed);
    (0..n)
        .map(|k| {
            let high = 1 + (k % 2000) as u64;
            halves(multiple(&mut r) + high, multiple(&mut r) + 65000 - 31 * high)
        })
        .collect()
}

/// A bucket with too many, for the front of a list.
fn overfull(n: usize, seed: u64) -> Vec<Uuid> {
    one_bucket(n.min(2 * CHAIN), seed, multiple)
}

/// Paths of 128 UUIDs, each of which has a bit more in common with the first than the one before, in that order of bits.
fn alike(n: usize, seed: u64, order: fn(u32) -> u32) -> Vec<Uuid> {
    let mut r = Rng::new(9000 + seed);
    let mut list = overfull(n, seed);
    while list.len() < n {
        let first = u128::from_be_bytes(halves(half(&mut r), half(&mut r)));
        list.extend((0..128).map(|bit| (first ^ 1 << order(bit)).to_be_bytes()).take(n - list.len()));
    }
    list
}

/// UUIDs that differ at the end of their paths alone, in that many bits, in turn from as many groups as there have to be:
/// each group's first ones make a long path, and the others stand at its end.
fn long_paths(n: usize, seed: u64, bits: u32) -> Vec<Uuid> {
    let mut r = Rng::new(10000 + seed);
    let groups: Vec<(u64, u64)> = (0..n.div_ceil(1 << bits)).map(|_| (half(&mut r), half(&mut r) >> bits)).collect();
    let mut list = overfull(n, seed);
    let one = |k: usize| {
        let (high, low) = groups[k % groups.len()];
        halves(high, low | ((k / groups.len()) as u64) << (64 - bits))
    };
    list.extend((0..n - list.len()).map(one));
    list
}

/// All of one sum, whatever their owners.
fn one_sum_shared(n: usize, seed: u64) -> Vec<Key> {
    let mut r = Rng::new(8000 + seed);
    (0..n).map(|k| (owner(k), of_sum(&mut r, OWNER * (OWNERS as u64 - owner(k) as u64)))).collect()
}

/// The list over and over, n UUIDs in all.
fn again(uuids: &[Uuid], n: usize) -> Vec<Uuid> {
    uuids.iter().cycle().take(n).copied().collect()
}
