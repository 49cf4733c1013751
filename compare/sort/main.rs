// Sorts the same numbers by order_sort and by Rust's two sorts, in turn, and prints the medians of their processor times and the ratios.
// sort [COUNT [RUNS]]: COUNT numbers an input (default 1000000), RUNS runs an input (default 15).

#[repr(C)]
struct Timespec {
    seconds: i64,
    nanoseconds: i64,
}

extern "C" {
    // A slice crosses as its first element and its length.
    fn order_sort(xs: *mut i64, count: usize, scratch: *mut i64, room: usize) -> bool;
    fn clock_gettime(clock: i32, time: *mut Timespec) -> i32;
}

// Linux's clock of the processor time that this thread has had: other work on the machine isn't counted.
const CLOCK_THREAD_CPUTIME_ID: i32 = 3;

fn milliseconds() -> f64 {
    let mut t = Timespec { seconds: 0, nanoseconds: 0 };
    assert!(unsafe { clock_gettime(CLOCK_THREAD_CPUTIME_ID, &mut t) } == 0);
    t.seconds as f64 * 1e3 + t.nanoseconds as f64 / 1e6
}

fn ours(xs: &mut [i64], scratch: &mut [i64]) -> bool {
    unsafe { order_sort(xs.as_mut_ptr(), xs.len(), scratch.as_mut_ptr(), scratch.len()) }
}

// Marsaglia's xorshift: the same numbers in each run and on each machine.
fn random(count: usize) -> Vec<i64> {
    let mut state = 88172645463325252u64;
    let mut next = || {
        state ^= state << 13;
        state ^= state >> 7;
        state ^= state << 17;
        state as i64
    };
    (0..count).map(|_| next()).collect()
}

// Composition times in decode order: frame 0, then groups of frames in the order that `group` gives, counted from 1.
fn video(count: usize, group: &[i64]) -> Vec<i64> {
    (0..count).map(|i| {
        let (g, at) = ((i + group.len() - 1) / group.len(), (i + group.len() - 1) % group.len());
        if i == 0 { 0 } else { ((g as i64 - 1) * group.len() as i64 + group[at]) * 1001 }
    }).collect()
}

fn median(mut times: Vec<f64>) -> f64 {
    times.sort_by(f64::total_cmp);
    times[times.len() / 2]
}

// The medians in milliseconds: ours, sort, sort_unstable. Ends the program where the results differ.
fn measure(name: &str, input: &[i64], runs: usize) -> [f64; 3] {
    let mut scratch = vec![0i64; input.len()];
    let mut times = [vec![], vec![], vec![]];
    for _ in 0..runs {
        let mut outputs = [input.to_vec(), input.to_vec(), input.to_vec()];
        for (way, xs) in outputs.iter_mut().enumerate() {
            let start = milliseconds();
            match way {
                0 => assert!(ours(xs, &mut scratch)),
                1 => xs.sort(),
                _ => xs.sort_unstable(),
            }
            times[way].push(milliseconds() - start);
        }
        if outputs[0] != outputs[1] || outputs[1] != outputs[2] {
            eprintln!("sort: the results differ: {name}");
            std::process::exit(1);
        }
    }
    times.map(median)
}

// A scratch that is too short is refused, and nothing is changed.
fn refuses(input: &[i64]) -> bool {
    let mut xs = input.to_vec();
    let mut scratch = vec![7i64; input.len() - 1];
    !ours(&mut xs, &mut scratch) && xs == input && scratch.iter().all(|&x| x == 7)
}

fn main() {
    let words: Vec<usize> = std::env::args().skip(1).map(|w| w.parse().unwrap_or(0)).collect();
    let count = words.first().copied().unwrap_or(1_000_000);
    let runs = words.get(1).copied().unwrap_or(15);
    if count == 0 || runs == 0 || words.len() > 2 {
        eprintln!("usage: sort [COUNT [RUNS]]");
        std::process::exit(2);
    }
    let inputs = [
        ("random", random(count)),
        ("ascending", (0..count as i64).map(|i| i * 1001).collect()),
        ("video, I B B P", video(count, &[3, 1, 2])),
        ("video, pyramid of 8", video(count, &[8, 4, 2, 1, 3, 6, 5, 7])),
    ];
    if !refuses(&inputs[0].1) {
        eprintln!("sort: a scratch that is too short isn't refused");
        std::process::exit(1);
    }
    println!("{count} numbers, medians of {runs} runs in ms of processor time; below 1, order_sort is the faster");
    println!("| Input | order_sort | sort | sort_unstable | order_sort / sort | order_sort / sort_unstable |");
    println!("|---|---|---|---|---|---|");
    for (name, input) in &inputs {
        let [a, b, c] = measure(name, input, runs);
        println!("| {name} | {a:.2} | {b:.2} | {c:.2} | {:.2} | {:.2} |", a / b, a / c);
    }
}
