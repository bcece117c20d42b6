//! The archive, without a tape: in parts of any size, and with bytes changed.
mod common;
use common::*;
use host::untar::{Options, Untar};
use std::fs;
use std::path::Path;
use std::time::{Duration, Instant};

fn unpack(bytes: &[u8], part: usize, to: &Path) -> std::io::Result<bool> {
    let mut t = Untar::new(to, Options::warning(|_| ()))?;
    bytes.chunks(part).try_for_each(|p| t.take(p).map(drop))?;
    assert!(t.commit(Instant::now() + Duration::from_secs(60))?);
    Ok(t.done())
}

#[test]
fn parts_of_any_size() {
    let s = Scratch::new();
    let from = s.folder("from");
    sample(&from);
    let bytes = archive(&from);
    assert_eq!(bytes.len() % 512, 0);
    for part in [1, 511, 512, 513, 100_000] {
        let to = s.folder(&format!("to{part}"));
        assert!(unpack(&bytes, part, &to).unwrap());
        assert_eq!(tree(&from), tree(&to));
    }
    // Read by single bytes it is the same archive.
    let mut tar = host::tar::Tar::new(&from, host::tar::Options::warning(|_| ())).unwrap();
    let mut one_by_one: Vec<u8> = Vec::new();
    while !tar.is_over() {
        let mut byte = [0];
        let (n, how) = tar.fill(&mut byte, Duration::from_secs(1));
        how.unwrap();
        one_by_one.extend(&byte[..n]);
    }
    assert!(one_by_one == bytes);
}

#[test]
fn modes_and_times_come_back() {
    use std::os::unix::fs::{MetadataExt, PermissionsExt};
    let s = Scratch::new();
    let (from, to) = (s.folder("from"), s.folder("to"));
    sample(&from);
    for (name, mode) in [("a", 0o640), ("inner/block", 0o755), ("empty", 0o555), ("inner", 0o500)] {
        fs::set_permissions(from.join(name), fs::Permissions::from_mode(mode)).unwrap();
    }
    assert!(unpack(&archive(&from), 4_096, &to).unwrap());
    for name in ["a", "b.empty", "inner/block", "empty", "inner"] {
        let (a, b) = (from.join(name).metadata().unwrap(), to.join(name).metadata().unwrap());
        assert_eq!((a.mode(), a.mtime(), a.mtime_nsec()), (b.mode(), b.mtime(), b.mtime_nsec()), "{name}");
    }
    // So that the scratch folder can be removed.
    for folder in [from, to] {
        fs::set_permissions(folder.join("inner"), fs::Permissions::from_mode(0o700)).unwrap();
    }
}

#[test]
fn any_bytes_are_survived() {
    let s = Scratch::new();
    let from = s.folder("from");
    fs::create_dir(from.join("d")).unwrap();
    fs::write(from.join("d").join("n".repeat(200)), noise(1, 700)).unwrap();
    std::os::unix::fs::symlink("l".repeat(150), from.join("link")).unwrap();
    let bytes = archive(&from);
    let outer = s.folder("outer");
    for seed in 0..400 {
        let to = s.folder("outer/to");
        let mut changed = bytes.clone();
        for c in noise(seed, 24).chunks(6) {
            let at = u32::from_be_bytes([0, c[0], c[1], c[2]]) as usize % changed.len();
            changed[at] = if c[3] % 2 == 0 { b"0/.\n= 9Lx25"[c[4] as usize % 11] } else { c[5] };
            // The sum is put right, so that more than the sum is tested.
            let block = at / 512 * 512;
            let sum: u32 = (0..512).map(|i| if (148..156).contains(&i) { 32 } else { changed[block + i] as u32 }).sum();
            changed[block + 148..block + 155].copy_from_slice(format!("{sum:06o}\0").as_bytes());
        }
        let _ = unpack(&changed, 600, &to);
        assert_eq!(fs::read_dir(&outer).unwrap().count(), 1, "seed {seed}");
        fs::remove_dir_all(&to).unwrap();
    }
}
