// The proved evaluator and checker, through the static library.
//
//   proved eval PAGE        every entry that is not F 1, `LETTER a r d number` by rising place; rounds last
//   proved time PAGE N      nanoseconds of an evaluation from the page's bytes, the median of N
//   proved check PAGE N     nanoseconds of a check of the page's least certificate, the median of N

#[repr(C)]
struct Moment {
    seconds: i64,
    nanoseconds: i64,
}

extern "C" {
    fn clock_gettime(clock: i32, moment: *mut Moment) -> i32;
}

// The processor's time that this process has taken, in nanoseconds: what else runs on the machine counts little.
fn taken() -> i64 {
    let mut moment = Moment { seconds: 0, nanoseconds: 0 };
    unsafe { clock_gettime(2, &mut moment) };
    moment.seconds * 1_000_000_000 + moment.nanoseconds
}

extern "C" {
    fn walumiren_evaluate(page: *const u8, length: usize, verdicts: *mut u8, entries: usize, numbers: *mut u16, count: usize) -> u32;
    fn walumiren_check(page: *const u8, length: usize, verdicts: *const u8, entries: usize, numbers: *const u16, count: usize) -> u32;
}

const ENTRIES: usize = 16384;

fn evaluate(page: &[u8], verdicts: &mut [u8], numbers: &mut [u16]) -> u32 {
    unsafe { walumiren_evaluate(page.as_ptr(), page.len(), verdicts.as_mut_ptr(), verdicts.len(), numbers.as_mut_ptr(), numbers.len()) }
}

fn check(page: &[u8], verdicts: &[u8], numbers: &[u16]) -> u32 {
    unsafe { walumiren_check(page.as_ptr(), page.len(), verdicts.as_ptr(), verdicts.len(), numbers.as_ptr(), numbers.len()) }
}

fn median(runs: usize, mut run: impl FnMut()) -> i64 {
    let mut times: Vec<i64> = (0..runs)
        .map(|_| {
            let start = taken();
            run();
            taken() - start
        })
        .collect();
    times.sort();
    times[runs / 2]
}

fn main() {
    let arguments: Vec<String> = std::env::args().collect();
    let page = std::fs::read(&arguments[2]).unwrap();
    let mut verdicts = vec![0u8; ENTRIES];
    let mut numbers = vec![0u16; ENTRIES];
    let rounds = evaluate(&page, &mut verdicts, &mut numbers);
    match arguments[1].as_str() {
        "eval" => {
            for p in 0..ENTRIES {
                if verdicts[p] != b'F' || numbers[p] != 1 {
                    println!("{} {} {} {} {}", verdicts[p] as char, p / 512 + 1, p / 32 % 16 + 1, p % 32 + 1, numbers[p]);
                }
            }
            println!("rounds {rounds}");
        }
        "time" => {
            let runs = arguments[3].parse().unwrap();
            println!("{} ns", median(runs, || assert_eq!(evaluate(&page, &mut verdicts, &mut numbers), rounds)));
        }
        _ => {
            let runs = arguments[3].parse().unwrap();
            println!("{} ns", median(runs, || assert_eq!(check(&page, &verdicts, &numbers), 0)));
        }
    }
}
