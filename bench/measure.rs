//! Runs a command with its standard output thrown away, and prints its wall seconds, its peak resident memory in kilobytes
//! and its processor seconds: of a number of rounds the one with the least wall seconds, and the greatest memory.
//!
//!     measure ROUNDS COMMAND WORDS..
use std::process::{Command, Stdio};
use std::time::Instant;

/// The result of `wait4` for a child that ended: its own time and the system's for it, each in seconds and microseconds, then the
/// peak resident memory, then what isn't read here.
#[repr(C)]
struct Usage {
    times: [i64; 4],
    peak: i64,
    rest: [i64; 13],
}

extern "C" {
    fn wait4(pid: i32, status: *mut i32, options: i32, usage: *mut Usage) -> i32;
}

fn main() {
    let words: Vec<String> = std::env::args().skip(1).collect();
    let rounds: u32 = words[0].parse().unwrap();
    let (mut seconds, mut peak, mut processor) = (f64::INFINITY, 0, 0.0);
    for _ in 0..rounds {
        let start = Instant::now();
        let child = Command::new(&words[1]).args(&words[2..]).stdout(Stdio::null()).stderr(Stdio::null()).spawn().unwrap();
        let mut usage = Usage { times: [0; 4], peak: 0, rest: [0; 13] };
        // SAFETY: the layout is that of `struct rusage` on 64-bit Linux, and the child is waited for once.
        let waited = unsafe { wait4(child.id() as i32, std::ptr::null_mut(), 0, &mut usage) };
        assert!(waited > 0, "the child was not waited for");
        let took = start.elapsed().as_secs_f64();
        if took < seconds {
            let [own, own_micros, system, system_micros] = usage.times;
            seconds = took;
            processor = (own + system) as f64 + (own_micros + system_micros) as f64 / 1e6;
        }
        peak = peak.max(usage.peak);
    }
    println!("{seconds:.3} {peak} {processor:.3}");
}
