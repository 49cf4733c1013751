//! How many instructions a turn of each line takes, counted by callgrind: the same whatever else the machine does.

use std::{ arch::asm, fs, hint::black_box, io, path::Path, process::{ Command, Stdio } };
use super::Work;
use crate::{ case::Call, ours };

/// What callgrind is asked for (callgrind.h): to write what it counted, to count from 0, to begin and to stop counting
const WRITE: u64 = 0x4354_0000;
const ZERO: u64 = WRITE + 1;
const BEGIN: u64 = WRITE + 4;
const STOP: u64 = WRITE + 5;

/// Asks callgrind for something: no-ops that it takes for a request (valgrind.h), and that a processor passes over
fn ask(request: u64) {
    let words = [request, 0, 0, 0, 0, 0];
    #[cfg(target_arch = "aarch64")]
    unsafe {
        asm!(
            "ror x12, x12, #3", "ror x12, x12, #13", "ror x12, x12, #51", "ror x12, x12, #61", "orr x10, x10, x10",
            inout("x3") 0u64 => _, in("x4") words.as_ptr(),
        );
    }
    #[cfg(target_arch = "x86_64")]
    unsafe {
        asm!(
            "rol rdi, 3", "rol rdi, 13", "rol rdi, 61", "rol rdi, 51", "xchg rbx, rbx",
            inout("rdx") 0u64 => _, in("rax") words.as_ptr(),
        );
    }
}

/// Makes one counted turn of each side, after one that isn't counted, and says of which line
pub fn turns<'a>(call: &str, input: &str, rust: &mut Work<'a>, library: &mut Work<'a>) {
    for side in [rust, library] {
        black_box(side());
        ask(BEGIN);
        ask(ZERO);
        black_box(side());
        ask(WRITE);
        ask(STOP);
    }
    println!("`{call}` | {input}");
}

/// Runs this program again under callgrind, and prints a table of what it counted; whether all went well
pub fn print(only: Option<Call>) -> bool {
    let folder = std::env::temp_dir().join(format!("compare-instructions-{}", std::process::id()));
    let done = fs::create_dir_all(&folder).and_then(|()| table(&folder, only));
    let _ = fs::remove_dir_all(&folder);
    done.map_err(|e| eprintln!("compare: valgrind's callgrind: {e}")).unwrap_or(false)
}

fn table(folder: &Path, only: Option<Call>) -> io::Result<bool> {
    let counts = folder.join("counts");
    let run = Command::new("valgrind")
        .args(["--tool=callgrind", "--quiet", "--instr-atstart=no", "--combine-dumps=no"])
        .arg(format!("--callgrind-out-file={}", counts.display()))
        .arg(std::env::current_exe()?).args(["bench", "--counted"])
        .args(only.iter().flat_map(|call| ["--only", call.name()]))
        .stderr(Stdio::inherit()).output()?;
    println!("| call | input | the Rust, instructions | library, instructions | library / Rust |\n|---|---|---:|---:|---:|");
    let said = String::from_utf8_lossy(&run.stdout).into_owned();
    for (k, line) in said.lines().enumerate() {
        let [rust, library] = [total(&counts, 2 * k + 1)?, total(&counts, 2 * k + 2)?];
        let said = if ours::LINKED { format!("{library} | {:.2}", library as f64 / rust as f64) } else { " | ".into() };
        println!("| {line} | {rust} | {said} |");
    }
    Ok(run.status.success())
}

/// The instructions of the k-th counted turn, from 1: callgrind writes a file for each
fn total(counts: &Path, k: usize) -> io::Result<u64> {
    let file = format!("{}.{k}", counts.display());
    let text = fs::read_to_string(&file)?;
    let total = text.lines().find_map(|line| line.strip_prefix("totals: ").or(line.strip_prefix("summary: "))).and_then(|n| n.trim().parse().ok());
    total.ok_or_else(|| io::Error::other(format!("{file} has no totals")))
}
