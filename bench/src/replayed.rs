//! Bar by bar from a fresh analyzer: what the program replay takes for a series, which feeds each line's bar by the step for stands that come from a fresh
//! analyzer. Reading and writing lines is taken off: the same lines are timed without the `n` that starts an analyzer, so that each is read and answered `no 4`.
use crate::series::Fed;
use std::fs::File;
use std::io::Write;
use std::process::{Command, Stdio};
use std::time::Duration;

/// The lengths of its stores, which replay takes at least.
const STORES: &str = "n 0 0 4096 1024 2048\n";

#[repr(C)]
struct Usage {
    /// seconds and microseconds in the program, then in the system for it
    times: [i64; 4],
    rest: [i64; 14],
}

unsafe extern "C" {
    fn getrusage(who: i32, usage: *mut Usage) -> i32;
}

/// RUSAGE_CHILDREN on Linux.
const CHILDREN: i32 = -1;

/// The processor time of all programs that this one has waited for.
fn children() -> Duration {
    let mut usage = Usage {
        times: [0; 4],
        rest: [0; 14],
    };
    let failed = unsafe { getrusage(CHILDREN, &mut usage) };
    assert_eq!(failed, 0, "no times of programs");
    let [seconds, micros, more_seconds, more_micros] = usage.times.map(|t| t as u64);
    Duration::from_secs(seconds + more_seconds) + Duration::from_micros(micros + more_micros)
}

fn program() -> String {
    format!("{}/../crates/replay/out/replay", env!("CARGO_MANIFEST_DIR"))
}

fn line(b: &Fed) -> String {
    let values = b.values.map(|v| format!("{:016x}", v.to_bits()));
    format!("b {} {} {}\n", b.time, b.id, values.join(" "))
}

/// The lines in a file, so that no other program has to write while replay reads.
struct Lines {
    path: std::path::PathBuf,
}

impl Lines {
    fn new(name: &str, start: &str, bars: &[Fed]) -> Lines {
        let file = format!("bench-{}-{name}", std::process::id());
        let path = std::env::temp_dir().join(file);
        let mut out = File::create(&path).expect("no folder to write to");
        let text: String = bars.iter().map(line).collect();
        out.write_all(start.as_bytes()).expect("lines not written");
        out.write_all(text.as_bytes()).expect("lines not written");
        Lines { path }
    }

    fn replay(&self) -> Command {
        let mut command = Command::new(program());
        command.stdin(File::open(&self.path).expect("no lines"));
        command
    }

    /// Whether every line was answered `ok`: replay's stores are large enough.
    fn accepted(&self) -> bool {
        let out = self.replay().output().expect("replay does not run");
        let text = String::from_utf8(out.stdout).expect("replay writes text");
        text.lines().all(|l| l.starts_with("ok"))
    }

    fn spent(&self) -> Duration {
        let before = children();
        let ended = self.replay().stdout(Stdio::null()).status();
        assert!(ended.expect("replay does not run").success());
        children() - before
    }
}

impl Drop for Lines {
    fn drop(&mut self) {
        let _ = std::fs::remove_file(&self.path);
    }
}

/// ns a bar of the shortest runs, and nothing where replay is not built or its stores are too small.
pub fn from_fresh(bars: &[Fed], repeats: usize) -> Option<f64> {
    if !std::path::Path::new(&program()).exists() {
        return None;
    }
    let fed = Lines::new("fed", STORES, bars);
    let read = Lines::new("read", "", bars);
    if !fed.accepted() {
        return None;
    }
    let runs = (0..repeats).map(|_| (fed.spent(), read.spent()));
    let (fed, read): (Vec<Duration>, Vec<Duration>) = runs.unzip();
    let spent = fed.iter().min()?.saturating_sub(*read.iter().min()?);
    Some(spent.as_nanos() as f64 / bars.len() as f64)
}
