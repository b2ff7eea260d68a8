//! bench [--dump] CARD CALLS SEED
//!
//! Makes a list of calls in memory, runs it on a fresh board, prints a checksum over all
//! answers, and tells on standard error how the list is made up and the time per call.
//! With --dump the list is printed as a flight script instead. docs/PERFORMANCE.md has the generator.

use std::fmt::Write as _;
use std::hint::black_box;
use std::process::ExitCode;
use std::time::Instant;
use twin::{read_sheet, BankCard, Board, Card, Fault, QueueCard, Reaped, Sent, Sheet};

const SHEET: &str = "F 16\n1 24\n2 40\n3 64\n5 100\n8 160\n10 200\n10 64\n16 320\n20 256\n25 500\n\
                     32 512\n40 64\n50 1024\n64 1280\n100 2048\n100 256\n\
                     L 8\n32\n32\n32\n32\n32\n32\n32\n32\nP 2\nD 16\nT 6000\n";
const LANES: u32 = 8;
const D: u32 = 16;
const PASSES: usize = 7;

#[derive(Clone, Copy)]
enum Call {
    Arrive { flow: u8, lane: u8, length: u16 },
    Kick { lane: u8 },
    Send { lane: u8 },
    Reap,
}

struct XorShift(u64);

impl XorShift {
    fn new(seed: u64) -> Self {
        XorShift(seed.wrapping_mul(0x9e37_79b9_7f4a_7c15) | 1)
    }
    fn below(&mut self, n: u32) -> u32 {
        self.0 ^= self.0 << 13;
        self.0 ^= self.0 >> 7;
        self.0 ^= self.0 << 17;
        ((self.0 >> 33) % u64::from(n)) as u32
    }
}

/// What the generator remembers, from the answers alone.
#[derive(Default)]
struct Seen {
    by_flow: [u32; 16],
    by_lane: [u32; 8],
    lane_of: Vec<u8>,
    waiting: u32,
    in_card: u32,
    draining: bool,
    kinds: [u64; 10],
    lane_sum: u64,
    lane_inside: u64,
    card_sum: u64,
    most: u32,
}

const KINDS: [&str; 10] = [
    "arrived",
    "arrive refused",
    "sent by kick",
    "kick no slot",
    "sent by send",
    "throttled",
    "empty",
    "send no slot",
    "finished",
    "not yet or idle",
];

impl Seen {
    fn sent(&mut self, ticket: u32, flow: u8) {
        self.by_flow[usize::from(flow)] -= 1;
        self.by_lane[usize::from(self.lane_of[ticket as usize])] -= 1;
        self.waiting -= 1;
        self.in_card += 1;
    }

    fn next(&mut self, rng: &mut XorShift, sheet: &Sheet) -> Call {
        if self.waiting >= 128 {
            self.draining = true;
        } else if self.waiting <= 56 {
            self.draining = false;
        }
        let roll = rng.below(100);
        let (arrive, kick, send) = if self.draining { (15, 45, 65) } else { (45, 62, 75) };
        if roll < arrive {
            let (a, b) = (rng.below(16), rng.below(16));
            let flow = if self.by_flow[b as usize] < self.by_flow[a as usize] { b } else { a };
            let (a, b) = (rng.below(LANES), rng.below(LANES));
            let lane = if self.by_lane[b as usize] < self.by_lane[a as usize] { b } else { a };
            let length = 1 + rng.below(u32::from(sheet.flows()[flow as usize].longest));
            Call::Arrive { flow: flow as u8, lane: lane as u8, length: length as u16 }
        } else if roll < send {
            // With no slot free three of four of these become reaps.
            let lane = rng.below(LANES) as u8;
            if self.in_card == D && rng.below(4) != 0 {
                Call::Reap
            } else if roll < kick {
                Call::Kick { lane }
            } else {
                Call::Send { lane }
            }
        } else {
            Call::Reap
        }
    }

    /// Notes the answer to a call that the board has just been asked.
    fn step<C: Card>(&mut self, board: &mut Board<C>, call: Call) {
        let kind = match call {
            Call::Arrive { flow, lane, length } => {
                match board.arrive(flow.into(), lane.into(), length.into()) {
                    Ok(_) => {
                        self.by_flow[usize::from(flow)] += 1;
                        self.by_lane[usize::from(lane)] += 1;
                        self.lane_of.push(lane);
                        self.waiting += 1;
                        0
                    }
                    Err(_) => 1,
                }
            }
            Call::Kick { lane } => match board.kick(lane.into()) {
                Ok(Sent::Sent { ticket, flow, .. }) => {
                    self.sent(ticket, flow);
                    2
                }
                Ok(Sent::NoSlot) => 3,
                _ => 6,
            },
            Call::Send { lane } => match board.send(lane.into()) {
                Ok(Sent::Sent { ticket, flow, .. }) => {
                    self.sent(ticket, flow);
                    4
                }
                Ok(Sent::Throttled(_)) => 5,
                Ok(Sent::NoSlot) => 7,
                _ => 6,
            },
            Call::Reap => match board.reap() {
                Ok(Reaped::Finished { .. }) => {
                    self.in_card -= 1;
                    8
                }
                _ => 9,
            },
        };
        self.kinds[kind] += 1;
        self.card_sum += u64::from(self.in_card);
        for &n in &self.by_lane {
            self.lane_sum += u64::from(n);
            self.lane_inside += u64::from((4..=20).contains(&n));
            self.most = self.most.max(n);
        }
    }

    fn tell(&self, calls: usize) {
        for (name, n) in KINDS.iter().zip(self.kinds) {
            eprintln!("{:>6.2} % {name}", 100.0 * n as f64 / calls as f64);
        }
        let all = 8 * calls as u64;
        eprintln!(
            "lanes hold {:.1} on average, {} at most, 4 to 20 in {:.1} % of moments; the card {:.1}",
            self.lane_sum as f64 / all as f64,
            self.most,
            100.0 * self.lane_inside as f64 / all as f64,
            self.card_sum as f64 / calls as f64
        );
    }
}

fn fresh<C: Card>(card: C, sheet: &Sheet) -> Board<C> {
    let mut board = Board::new(card);
    board.load(sheet).expect("the sheet loads");
    board
}

fn generate<C: Card>(card: C, sheet: &Sheet, calls: usize, seed: u64) -> Vec<Call> {
    let mut board = fresh(card, sheet);
    let mut rng = XorShift::new(seed);
    let mut seen = Seen::default();
    let mut list = Vec::with_capacity(calls);
    for _ in 0..calls {
        let call = seen.next(&mut rng, sheet);
        seen.step(&mut board, call);
        list.push(call);
    }
    seen.tell(calls);
    list
}

fn word(kind: u64, a: u64, b: u64, c: u64) -> u64 {
    kind.wrapping_add(a.wrapping_mul(0x9e37_79b9_7f4a_7c15))
        .wrapping_add(b.wrapping_mul(0xc2b2_ae3d_27d4_eb4f))
        .wrapping_add(c.wrapping_mul(0x1656_67b1_9e37_79f9))
}

fn fault_word(fault: Fault) -> u64 {
    let ticket = if let Fault::Stray(ticket) = fault { ticket } else { 0 };
    word(100 + u64::from(fault.number()), ticket.into(), 0, 0)
}

fn sent_word(answer: Result<Sent, Fault>) -> u64 {
    match answer {
        Ok(Sent::Sent { ticket, flow, charge }) => {
            word(5, ticket.into(), flow.into(), charge.into())
        }
        Ok(Sent::Throttled(excess)) => word(3, excess, 0, 0),
        Ok(Sent::Empty) => word(2, 0, 0, 0),
        Ok(Sent::NoSlot) => word(4, 0, 0, 0),
        Err(fault) => fault_word(fault),
    }
}

/// The list's calls one after the other; the checksum over their answers.
#[inline(never)]
fn run_list<C: Card>(board: &mut Board<C>, list: &[Call]) -> u64 {
    let mut sum = 0u64;
    for call in list {
        let x = match *call {
            Call::Arrive { flow, lane, length } => {
                match board.arrive(flow.into(), lane.into(), length.into()) {
                    Ok((ticket, (start, end))) => word(1, ticket.into(), start, end),
                    Err(fault) => fault_word(fault),
                }
            }
            Call::Kick { lane } => sent_word(board.kick(lane.into())),
            Call::Send { lane } => sent_word(board.send(lane.into())),
            Call::Reap => match board.reap() {
                Ok(Reaped::Finished { ticket, flow, charge, status }) => {
                    let last = u64::from(charge) << 8 | u64::from(status);
                    word(6, ticket.into(), flow.into(), last)
                }
                Ok(Reaped::NotYet) => word(7, 0, 0, 0),
                Ok(Reaped::Idle) => word(8, 0, 0, 0),
                Err(fault) => fault_word(fault),
            },
        };
        sum = (sum.rotate_left(5) ^ x).wrapping_mul(0x0000_0100_0000_01b3);
    }
    sum
}

fn dump(kind: &str, list: &[Call]) -> String {
    let mut out = format!("card {kind}\nsheet {}\n{SHEET}", SHEET.lines().count());
    for call in list {
        match *call {
            Call::Arrive { flow, lane, length } => writeln!(out, "arrive {flow} {lane} {length}"),
            Call::Kick { lane } => writeln!(out, "kick {lane}"),
            Call::Send { lane } => writeln!(out, "send {lane}"),
            Call::Reap => writeln!(out, "reap"),
        }
        .expect("a string takes what is written");
    }
    out
}

fn bench<C: Card + Clone>(card: C, kind: &str, calls: usize, seed: u64, dumped: bool) {
    let sheet = read_sheet(SHEET.as_bytes()).expect("the sheet is right");
    let list = generate(card.clone(), &sheet, calls, seed);
    if dumped {
        print!("{}", dump(kind, &list));
        return;
    }
    let passes = if std::env::var_os("BENCH_ONE_PASS").is_some() { 1 } else { PASSES };
    let mut times = Vec::new();
    let mut sums = Vec::new();
    for _ in 0..passes {
        let mut board = fresh(card.clone(), &sheet);
        let start = Instant::now();
        sums.push(run_list(black_box(&mut board), black_box(&list)));
        times.push(start.elapsed().as_nanos() as f64 / calls as f64);
    }
    assert!(sums.iter().all(|s| *s == sums[0]), "every pass answers the same");
    println!("{:016x}", sums[0]);
    times.sort_by(f64::total_cmp);
    eprintln!(
        "{kind}: {calls} calls, ns per call: best {:.2}, median {:.2}, worst {:.2} of {passes} passes",
        times[0],
        times[times.len() / 2],
        times[times.len() - 1]
    );
}

fn main() -> ExitCode {
    let mut args: Vec<String> = std::env::args().skip(1).collect();
    let dumped = args.first().is_some_and(|a| a == "--dump");
    if dumped {
        args.remove(0);
    }
    if let [kind, calls, seed] = &args[..] {
        if let (Ok(calls), Ok(seed)) = (calls.parse(), seed.parse()) {
            match kind.as_str() {
                "queue" => {
                    bench(QueueCard::new(), kind, calls, seed, dumped);
                    return ExitCode::SUCCESS;
                }
                "bank" => {
                    bench(BankCard::new(), kind, calls, seed, dumped);
                    return ExitCode::SUCCESS;
                }
                _ => {}
            }
        }
    }
    eprintln!("usage: bench [--dump] queue|bank CALLS SEED");
    ExitCode::FAILURE
}
