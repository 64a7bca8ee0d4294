//! How often each word comes in a made-up text: a map of counters, beside std's. Then the same by handles, and what is refused.

use foxglovepeg::{least_near, Error, Handle, Map, MapPlan, Worker};
use std::collections::HashMap;
use std::path::Path;

const WORDS: u64 = 5_000;
/// A folder that C would take up to its byte 0.
const NO_NAME: &str = "/tmp\0";

fn count(folder: Option<&Path>) -> Result<(), Error> {
    let plan = MapPlan {
        near_bytes: 1 << 18,
        entries: WORDS,
        typical: 32,
        long_near_bytes: least_near(8, 4088)?,
        long_parts: 8,
        seed: [3, 5],
    };
    assert!(matches!(Map::in_folder(plan, Path::new(NO_NAME), 1 << 24, 1 << 20), Err(Error::InvalidInput)));
    let mut map = match folder {
        Some(folder) => Map::in_folder(plan, folder, 1 << 24, 1 << 20)?,
        None => Map::in_memory(plan)?,
    };
    let mut beside: HashMap<Vec<u8>, u64> = HashMap::new();
    let (mut word, mut out) = (1u64, Vec::new());
    for _ in 0..20 * WORDS {
        word = word.wrapping_mul(6_364_136_223_846_793_005).wrapping_add(1_442_695_040_888_963_407);
        let key = format!("word {}", (word >> 33) % WORDS).into_bytes();
        let was = if map.get(&key, &mut out)? { u64::from_le_bytes(out[..].try_into().unwrap()) } else { 0 };
        map.put(&key, &(was + 1).to_le_bytes())?;
        *beside.entry(key).or_insert(0) += 1;
    }
    assert_eq!(map.len(), beside.len());
    for (key, count) in &beside {
        assert!(map.get(key, &mut out)? && out == count.to_le_bytes());
    }
    let mut told = 0;
    map.for_each(|key, count| {
        told += 1;
        beside[key].to_le_bytes() == count
    })?;
    assert_eq!(told, beside.len());
    map.put(b"long", &[7; 20_000])?;
    assert!(map.get(b"long", &mut out)? && out == [7; 20_000]);
    let (mut told, mut longest) = (0, 0);
    map.for_each(|_, value| {
        told += 1;
        longest = longest.max(value.len());
        true
    })?;
    assert!(told == beside.len() + 1 && longest == 20_000);
    told = 0;
    map.for_each(|_, _| {
        told += 1;
        told < 9
    })?;
    assert!(told == 9 && !map.is_empty());
    let (entries, parts) = map.statistics();
    assert!(entries.near_objects + entries.far_objects == WORDS && parts.near_objects + parts.far_objects == 5);
    let other = map.get(b"none", &mut out)?;
    assert!(!other && out.is_empty());
    assert!(map.remove(b"long")? && !map.remove(b"long")? && !map.contains_key(b"long")?);
    assert_eq!(map.put(&[0; 4087], b""), Err(Error::Length));
    map.trim();
    map.clear();
    assert!(map.is_empty() && !map.contains_key(b"word 1")?);
    Ok(())
}

fn handles(folder: &Path) -> Result<(), Error> {
    let mut worker = Worker::in_folder(1 << 17, 1000, 64, folder, 1 << 20)?;
    let handle = worker.alloc(b"hello", 1)?;
    let mut bytes = *b"J";
    worker.exchange(handle, 0, &mut bytes)?;
    worker.trim();
    let mut out = [0; 5];
    worker.read(handle, 0, &mut out)?;
    assert!(&out == b"Jello" && &bytes == b"h");
    worker.write(handle, 3, b"p!")?;
    let mut part = [0; 3];
    worker.read(handle, 2, &mut part)?;
    assert!(&part == b"lp!" && worker.len_of(handle) == Some(5) && worker.holds(handle));
    assert_eq!(worker.write(handle, 3, b"abc"), Err(Error::Range));
    assert_eq!(worker.read(handle, 5, &mut part[..1]), Err(Error::Range));
    let zeros = worker.alloc_zeros(3, 1)?;
    worker.read(zeros, 0, &mut part)?;
    assert!(part == [0; 3]);
    worker.drop_object(zeros)?;
    let all = worker.statistics();
    assert!(all.near_objects + all.far_objects == 1 && all.accesses == 8 && all.heaps == 1);
    worker.add_heap()?;
    assert!(worker.statistics().heaps == 2 && !worker.holds(Handle(handle.0 ^ 1)));
    worker.drop_object(handle)?;
    assert_eq!(worker.read(handle, 0, &mut out), Err(Error::NotHeld));
    assert_eq!(worker.len_of(handle), None);
    assert!(matches!(Worker::in_memory(1, 1, 64), Err(Error::Near)));
    assert!(matches!(Worker::in_folder(1 << 17, 1000, 64, Path::new("/no/such/folder"), 1 << 20), Err(Error::File)));
    assert!(matches!(Worker::in_folder(1 << 17, 1000, 64, Path::new(NO_NAME), 1 << 20), Err(Error::InvalidInput)));
    Ok(())
}

/// In what order keys are told that a map with this seed has.
fn order(seed: [u64; 2]) -> Result<Vec<Vec<u8>>, Error> {
    let plan = MapPlan { near_bytes: 1 << 17, entries: 100, typical: 8, long_near_bytes: least_near(1, 4088)?, long_parts: 1, seed };
    let (mut map, mut keys) = (Map::in_memory(plan)?, Vec::new());
    for key in 0..100 {
        map.put(&[key], b"")?;
    }
    map.for_each(|key, _| {
        keys.push(key.to_vec());
        true
    })?;
    Ok(keys)
}

/// Parts of long values have the file's second bytes: there is room for many, and not for as many entries.
fn sides(folder: &Path) -> Result<(), Error> {
    let plan = MapPlan { near_bytes: 1 << 17, entries: 2048, typical: 1000, long_near_bytes: 1 << 17, long_parts: 500, seed: [3, 5] };
    let mut map = Map::in_folder(plan, folder, 1 << 16, 1 << 22)?;
    map.put(b"long", &[7; 1 << 20])?;
    let mut refused = Ok(());
    for key in 0..1000u16 {
        refused = refused.and(map.put(&key.to_le_bytes(), &[7; 1000]));
    }
    assert_eq!(refused, Err(Error::NoRoom));
    Ok(())
}

/// Bytes of files that are in memory, and mapped to be written.
fn resident() -> u64 {
    let (mut all, mut counts) = (0, false);
    for line in std::fs::read_to_string("/proc/self/smaps").unwrap().lines() {
        let mut words = line.split_whitespace();
        match words.next() {
            Some("Rss:") if counts => all += words.next().unwrap().parse::<u64>().unwrap() * 1024,
            Some(word) if !word.ends_with(':') => counts = words.next() == Some("rw-s"),
            _ => {}
        }
    }
    all
}

/// What is resident of a file is given back.
fn trims(folder: &Path) -> Result<(), Error> {
    let mut worker = Worker::in_folder(1 << 17, 1000, 4000, folder, 1 << 20)?;
    for _ in 0..200 {
        worker.alloc(&[7; 4000], 1)?;
    }
    let most = resident();
    worker.trim();
    assert!(most > 1 << 19 && resident() == 0);
    Ok(())
}

/// How many files are mapped to be written.
fn mapped() -> usize {
    std::fs::read_to_string("/proc/self/maps").unwrap().matches(" rw-s ").count()
}

fn main() -> Result<(), Error> {
    let folder = std::env::temp_dir();
    let before = mapped();
    count(None)?;
    count(Some(&folder))?;
    handles(&folder)?;
    sides(&folder)?;
    trims(&folder)?;
    let first = order([3, 5])?;
    assert!(first == order([3, 5])? && first != order([4, 5])? && first != order([3, 6])?);
    // (what goes is closed)
    assert_eq!(mapped(), before);
    Ok(())
}
