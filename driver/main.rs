// Compares Bihumlad with pxfm on ten million arguments, and times both with the C library's erfc. See README.md.
use std::hint::black_box;
use std::time::Instant;

#[repr(C)]
#[derive(Clone, Copy)]
struct Evaluated {
    value: f64,
    code: u8,
}

unsafe extern "C" {
    safe fn bihumlad_erfc_plain(bits: u64) -> Evaluated;
    safe fn bihumlad_erfc_fused(bits: u64) -> Evaluated;
    safe fn erfc(x: f64) -> f64;
}

const TAIL: u64 = 0x400713786d9c7c0a;
const TWENTY: u64 = 0x4034000000000000;
const TINY_ERR: u64 = 0x4039a71434a6fa53;
const FAR: u64 = 0x4039db1bb14e15ca;
const LISTED: u64 = 0x403a8f7bfbd15495;
const END: u64 = 0x403b39dc41e48bfd;

struct Random(u64);

impl Random {
    fn next(&mut self) -> u64 {
        self.0 = self.0.wrapping_add(0x9e3779b97f4a7c15);
        let mut z = self.0;
        z = (z ^ (z >> 30)).wrapping_mul(0xbf58476d1ce4e5b9);
        z = (z ^ (z >> 27)).wrapping_mul(0x94d049bb133111eb);
        z ^ (z >> 31)
    }
    // from lo to hi, both included
    fn within(&mut self, lo: u64, hi: u64) -> u64 {
        lo + ((self.next() as u128 * (hi - lo + 1) as u128) >> 64) as u64
    }
}

fn same(a: f64, b: f64) -> bool {
    a.to_bits() == b.to_bits() || (a.is_nan() && b.is_nan())
}

// The code that pxfm's steps show.
fn code(bits: u64, decided: fn(f64) -> bool) -> u8 {
    let x = f64::from_bits(bits);
    if x.is_nan() {
        0
    } else if bits >= 0xc017744f8f74e94b || (bits >= END && bits < 1 << 63) {
        1
    } else if bits < TAIL || bits >= 1 << 63 {
        2
    } else if bits == LISTED {
        6
    } else if bits >= FAR {
        5
    } else if decided(x) {
        3
    } else {
        4
    }
}

struct Side {
    name: &'static str,
    compared: u64,
    codes: [u64; 7],
    different: u64,
}

impl Side {
    fn compare(&mut self, bits: u64, ours: Evaluated, theirs: f64, their_code: u8) {
        self.compared += 1;
        self.codes[their_code as usize] += 1;
        if !same(ours.value, theirs) || ours.code != their_code {
            if self.different == 0 {
                println!(
                    "{}: first difference at {bits:016x}: pxfm {:016x} code {their_code}, here {:016x} code {}",
                    self.name, theirs.to_bits(), ours.value.to_bits(), ours.code
                );
            }
            self.different += 1;
        }
    }
    fn report(&self) {
        println!("{}: {} compared, {} different, by code {:?}", self.name, self.compared, self.different, self.codes);
    }
}

// Ten million arguments: most in the tail, the rest over the flat ends and the NaNs.
fn compare(n: u64) -> bool {
    let mut r = Random(20261117);
    let mut plain = Side { name: "plain", compared: 0, codes: [0; 7], different: 0 };
    let mut fused = Side { name: "fused", compared: 0, codes: [0; 7], different: 0 };
    for i in 0..n {
        let bits = match i % 20 {
            0..=8 => r.within(TAIL, TWENTY - 1),
            9..=13 => r.within(TWENTY, FAR - 1),
            14 => r.within(TINY_ERR, FAR - 1),
            15..=16 => r.within(FAR, END - 1),
            17 => r.within(0, 0x3c8c5bf891b4ef6a) | (r.next() & (1 << 63)),
            18 => if i % 40 < 20 { r.within(END, 0x7ff0000000000000) } else { r.within(0xc017744f8f74e94b, 0xfff0000000000000) },
            _ => r.within(0x7ff0000000000001, 0x7fffffffffffffff) | (r.next() & (1 << 63)),
        };
        let x = f64::from_bits(bits);
        plain.compare(bits, bihumlad_erfc_plain(bits), pxfm_plain::f_erfc(x), code(bits, pxfm_plain::decided));
        if bits < TAIL || bits >= END || bits < TWENTY {
            fused.compare(bits, bihumlad_erfc_fused(bits), pxfm_fused::f_erfc(x), code(bits, pxfm_fused::decided));
        }
    }
    plain.report();
    fused.report();
    plain.different + fused.different == 0
}

// Nanoseconds an argument: the best of some passes over the same arguments.
fn nanoseconds(arguments: &[u64], f: impl Fn(u64) -> f64) -> f64 {
    let mut best = f64::MAX;
    for _ in 0..15 {
        let start = Instant::now();
        for &a in arguments {
            black_box(f(black_box(a)));
        }
        best = best.min(start.elapsed().as_secs_f64() * 1e9 / arguments.len() as f64);
    }
    best
}

fn time(name: &str, arguments: &[u64]) {
    let x = f64::from_bits;
    let t = [
        nanoseconds(arguments, |b| pxfm_plain::f_erfc(x(b))),
        nanoseconds(arguments, |b| bihumlad_erfc_plain(b).value),
        nanoseconds(arguments, |b| pxfm_fused::f_erfc(x(b))),
        nanoseconds(arguments, |b| bihumlad_erfc_fused(b).value),
        nanoseconds(arguments, |b| erfc(x(b))),
    ];
    println!(
        "| {name} | {:.1} | {:.1} | {:.2} | {:.1} | {:.1} | {:.2} | {:.1} |",
        t[0], t[1], t[1] / t[0], t[2], t[3], t[3] / t[2], t[4]
    );
}

fn main() {
    let n = std::env::args().nth(1).map_or(10_000_000, |s| s.parse().expect("a number of arguments"));
    let equal = compare(n);
    let mut r = Random(7);
    let pick = |r: &mut Random, lo: u64, hi: u64, decided: bool| -> Vec<u64> {
        let mut v = Vec::new();
        while v.len() < 4096 {
            let b = r.within(lo, hi);
            if pxfm_plain::decided(f64::from_bits(b)) == decided {
                v.push(b);
            }
        }
        v
    };
    println!("\n| ns an argument | pxfm plain | plain | ratio | pxfm fused | fused | ratio | C erfc |\n|---|---|---|---|---|---|---|---|");
    time("fast, below 20", &pick(&mut r, TAIL, TWENTY - 1, true));
    time("fast, 20 and above", &pick(&mut r, TWENTY, TINY_ERR - 1, true));
    time("retried", &pick(&mut r, TINY_ERR, FAR - 1, false));
    let far: Vec<u64> = (0..4096).map(|_| r.within(FAR, END - 1)).collect();
    time("no fast step", &far);
    let flat: Vec<u64> = (0..4096).map(|i| match i % 3 {
        0 => r.within(0, 0x3c8c5bf891b4ef6a),
        1 => r.within(END, 0x7ff0000000000000),
        _ => r.within(0xc017744f8f74e94b, 0xfff0000000000000),
    }).collect();
    time("flat ends", &flat);
    if !equal {
        std::process::exit(1);
    }
}
