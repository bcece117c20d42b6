//! A vault of one's own on loopback, a folder that goes away with its value, and bytes to fill it: for `mossgoblin try`
//! without an address, the tests and the benchmark.
use std::fs;
use std::io::{self, BufRead, BufReader};
use std::path::{Path, PathBuf};
use std::process::{Child, Command, Stdio};
use std::sync::atomic::{AtomicUsize, Ordering};

pub struct Scratch(pub PathBuf);

impl Scratch {
    pub fn new() -> io::Result<Scratch> {
        static COUNT: AtomicUsize = AtomicUsize::new(0);
        let name = format!("mossgoblin-{}-{}", std::process::id(), COUNT.fetch_add(1, Ordering::SeqCst));
        let path = std::env::temp_dir().join(name);
        fs::create_dir(&path)?;
        Ok(Scratch(path))
    }

    pub fn path(&self, name: &str) -> PathBuf {
        self.0.join(name)
    }
}

impl Drop for Scratch {
    fn drop(&mut self) {
        let _ = fs::remove_dir_all(&self.0);
    }
}

/// A vault that ends with this value.
pub struct Running {
    pub child: Child,
    pub address: String,
}

impl Running {
    /// Starts a vault and waits until it listens.
    pub fn start(command: &mut Command) -> io::Result<Running> {
        let mut child = command.stdout(Stdio::piped()).spawn()?;
        let mut line = String::new();
        if let Some(out) = child.stdout.take() {
            BufReader::new(out).read_line(&mut line)?;
        }
        match line.strip_prefix("listening on ") {
            Some(address) => Ok(Running { child, address: address.trim().to_string() }),
            None => {
                let _ = child.kill();
                let _ = child.wait();
                Err(io::Error::other("the vault did not start"))
            }
        }
    }
}

impl Drop for Running {
    fn drop(&mut self) {
        let _ = self.child.kill();
        let _ = self.child.wait();
    }
}

/// Bytes that look random and are the same for the same seed.
pub fn noise(seed: u64, n: usize) -> Vec<u8> {
    let mut x = seed.wrapping_mul(2).wrapping_add(0x9e37_79b9_7f4a_7c15);
    (0..n)
        .map(|_| {
            x ^= x << 13;
            x ^= x >> 7;
            x ^= x << 17;
            (x >> 24) as u8
        })
        .collect()
}

/// Makes a folder with files of several lengths, folders in it, an empty file, an empty folder, a link and a long name.
pub fn sample(folder: &Path) -> io::Result<()> {
    fs::create_dir_all(folder.join("inner/deep"))?;
    fs::create_dir_all(folder.join("empty"))?;
    fs::write(folder.join("a"), b"hello\n")?;
    fs::write(folder.join("b.empty"), b"")?;
    fs::write(folder.join("inner/block"), noise(1, 512))?;
    fs::write(folder.join("inner/deep/large"), noise(2, 300_001))?;
    fs::write(folder.join("inner/\u{fc}ml\u{e4}ut"), noise(3, 513))?;
    let long = folder.join("n".repeat(120)).join("m".repeat(150));
    fs::create_dir_all(&long)?;
    fs::write(long.join("x".repeat(200)), noise(4, 1000))?;
    std::os::unix::fs::symlink("../a", folder.join("inner/link"))
}
