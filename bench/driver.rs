//! Times one retire of the crate's text and one of ours, on the same requests, in one process.
//!
//!   driver                     medians of both, one line a shape, after the two answers were compared
//!   driver NAME crate|ours     that call alone, once (for callgrind: --toggle-collect=measured_crate or measured_ours)
//!   driver --names             the shapes
use daniskol::{Mode, Run, Tactic, Time};
use differential_dataflow::operators::int_proxy::ProxyReduceTactic;
use differential_dataflow::operators::reduce::ReduceTactic;
use std::time::Instant;
use timely::progress::Antichain;
use tools::krate::{self, anti, run_of, Backend, Bat, P};
use tools::lines::{Rec, Request, T};

type Theirs = ProxyReduceTactic<P, Backend>;

#[inline(never)]
#[no_mangle]
pub fn measured_crate(t: &mut Theirs, a: Vec<Bat>, b: Vec<Bat>, c: Vec<Bat>, l: &Antichain<P>, u: &Antichain<P>, h: &Antichain<P>) -> (Vec<(P, Bat)>, Antichain<P>) {
    t.retire(a, b, c, l, u, h)
}

#[inline(never)]
#[no_mangle]
pub fn measured_ours(t: &mut Tactic, old: Run, new: Run, out: Run, l: &[Time], u: &[Time], h: &[Time]) -> Result<daniskol::Answer, daniskol::Refusal> {
    t.retire(old, new, out, l, u, h)
}

struct Shape {
    name: String,
    mode: u8,
    kind: &'static str,
    keys: u64,
    times: usize,
    values: u64,
}

// The times of one key: those of the old run, those of the new one, and the lower frontier between them.
fn times(kind: &str, n: usize) -> (Vec<T>, Vec<T>, T) {
    let m = n as u32;
    match kind {
        "grid" => {
            let w = (1..).take_while(|w| w * w <= m).last().unwrap();
            let h = m / w;
            let cells = |from: u32| (0..w * h).map(|i| (from + i / h, i % h)).collect::<Vec<T>>();
            (cells(0), cells(w), (w, 0))
        }
        "antichain" => ((0..m).map(|i| (i, m - 1 - i)).collect(), (0..m).map(|i| (m + i, m - 1 - i)).collect(), (m, 0)),
        "idle" => (vec![], vec![(0, 0)], (0, 0)),
        _ => ((0..m).map(|i| (i, 0)).collect(), (0..m).map(|i| (m + i, 0)).collect(), (m, 0)),
    }
}

fn request(s: &Shape) -> Request {
    let (before, after, cut) = times(s.kind, s.times);
    let records = |ts: &[T], d: i64| {
        let mut l: Vec<Rec> = Vec::new();
        for k in 1..=s.keys {
            for v in 1..=s.values {
                l.extend(ts.iter().map(|t| (k, v, *t, d)));
            }
        }
        l.sort();
        l
    };
    let (old, new) = (records(&before, 1), records(&after, if s.kind == "one" { -1 } else { 1 }));
    // The old output and the pending list are the crate's own answer to the old run.
    let first = krate::call(&Request { mode: s.mode, width: 64, lower: vec![(0, 0)], upper: vec![cut], held: vec![(0, 0)], new: old.clone(), ..Default::default() });
    let mut out: Vec<Rec> = first.fixes.iter().map(|f| (f.1, f.2, f.3, f.4)).collect();
    out.sort();
    let mut pend = first.pend.clone();
    pend.sort();
    Request { mode: s.mode, width: 64, lower: vec![cut], upper: vec![], held: vec![cut], old, new, out, pend }
}

fn shapes() -> Vec<Shape> {
    let mut l = Vec::new();
    for (mode, word) in [(1, "count"), (2, "distinct")] {
        let mut add = |kind: &'static str, keys: u64, times: usize, values: u64| l.push(Shape { name: format!("{word}-{kind}-{keys}x{times}x{values}"), mode, kind, keys, times, values });
        // A count writes two corrections for most moments, and 4,096 is the limit.
        let (most, some) = if mode == 1 { (2048, 11) } else { (4096, 32) };
        for kind in ["chain", "grid"] {
            for (keys, times, values) in [(1, 1024, 4), (16, 64, 4), (256, 4, 4), (most, 1, 1)] {
                add(kind, keys, times, values);
            }
        }
        for (keys, times, values) in [(1, 44, 4), (16, some, 4), (256, 2, 4)] {
            add("antichain", keys, times, values);
        }
        for keys in [1, 16, 256, 4096] {
            add("one", keys, 1, 1);
        }
        for n in [64, 128, 256, 512, 1024] {
            add("chain", 1, n, 1);
            add("grid", 1, n, 1);
        }
        for n in [8, 16, 32] {
            add("antichain", 1, n, 1);
        }
        add("idle", 1, 1, 1);
    }
    l
}

struct Columns {
    keys: Vec<u64>,
    values: Vec<u64>,
    times: Vec<u64>,
    diffs: Vec<i64>,
}

impl Columns {
    fn of(l: &[Rec]) -> Columns {
        Columns {
            keys: l.iter().map(|r| r.0).collect(),
            values: l.iter().map(|r| r.1).collect(),
            times: l.iter().map(|r| time(&r.2).packed()).collect(),
            diffs: l.iter().map(|r| r.3).collect(),
        }
    }

    fn run(&self) -> Run<'_> {
        Run { keys: &self.keys, values: &self.values, times: &self.times, diffs: &self.diffs }
    }
}

fn time(t: &T) -> Time {
    Time::new(t.0, t.1)
}

struct Both {
    r: Request,
    old: Columns,
    new: Columns,
    out: Columns,
    frontiers: [Vec<Time>; 3],
    bats: [Bat; 3],
    antis: [Antichain<P>; 3],
    ours: Tactic,
}

impl Both {
    fn new(s: &Shape) -> Both {
        let r = request(s);
        let list = |l: &Vec<T>| l.iter().map(time).collect::<Vec<_>>();
        let mode = if r.mode == 1 { Mode::Count } else { Mode::Distinct };
        let mut ours = Tactic::new(mode, r.width as u64);
        ours.set_pending(r.pend.iter().map(|(k, t)| (*k, time(t))));
        Both {
            old: Columns::of(&r.old),
            new: Columns::of(&r.new),
            out: Columns::of(&r.out),
            frontiers: [list(&r.lower), list(&r.upper), list(&r.held)],
            bats: [&r.old, &r.out, &r.new].map(|l| Bat::new(run_of(l))),
            antis: [anti(&r.lower), anti(&r.upper), anti(&r.held)],
            ours,
            r,
        }
    }

    fn theirs(&self) -> (u64, Vec<(P, Bat)>) {
        let mut t = krate::tactic(self.r.mode, self.r.width, &self.r.pend);
        let [a, b, c] = self.bats.each_ref().map(|b| vec![b.clone()]);
        let [l, u, h] = &self.antis;
        let from = Instant::now();
        let (made, _) = measured_crate(&mut t, a, b, c, l, u, h);
        (from.elapsed().as_nanos() as u64, made)
    }

    fn ours(&mut self) -> (u64, Result<daniskol::Answer, daniskol::Refusal>) {
        self.ours.set_pending(self.r.pend.iter().map(|(k, t)| (*k, time(t))));
        let [l, u, h] = &self.frontiers;
        let from = Instant::now();
        let a = measured_ours(&mut self.ours, self.old.run(), self.new.run(), self.out.run(), l, u, h);
        (from.elapsed().as_nanos() as u64, a)
    }

    // Whether both wrote the same corrections, tile by tile.
    fn agree(&mut self) -> Result<usize, String> {
        let (_, made) = self.theirs();
        let answer = self.ours().1.map_err(|e| e.to_string())?;
        let mut theirs: Vec<_> = made.iter().enumerate().flat_map(|(i, (_, b))| b.recs.iter().map(move |((k, v), t, d)| (i, *k, *v, time(&krate::q(t)), *d)).collect::<Vec<_>>()).collect();
        theirs.sort();
        let ours: Vec<_> = answer.fixes.iter().map(|f| (f.tile, f.key, f.value, f.time, f.diff)).collect();
        if theirs == ours { Ok(ours.len()) } else { Err("different corrections".into()) }
    }
}

fn median(mut f: impl FnMut() -> u64) -> u64 {
    let n = (1_000_000_000 / f().max(1)).clamp(5, 1001);
    let mut l: Vec<u64> = (0..n).map(|_| f()).collect();
    l.sort();
    l[l.len() / 2]
}

fn main() {
    let args: Vec<String> = std::env::args().skip(1).collect();
    let all = shapes();
    match args.iter().map(|s| s.as_str()).collect::<Vec<_>>()[..] {
        ["--names"] => all.iter().for_each(|s| println!("{}", s.name)),
        [name, who] => {
            let mut b = Both::new(all.iter().find(|s| s.name == name).expect("no such shape"));
            match who {
                "crate" => drop(b.theirs()),
                "ours" => drop(b.ours()),
                _ => panic!("crate or ours"),
            }
        }
        _ => {
            for s in &all {
                let mut b = Both::new(s);
                match b.agree() {
                    Err(e) => println!("shape={} refused={e:?}", s.name),
                    Ok(fixes) => {
                        let theirs = median(|| b.theirs().0);
                        let ours = median(|| b.ours().0);
                        println!("shape={} new={} fixes={fixes} crate_ns={theirs} ours_ns={ours} ratio={:.2}", s.name, b.r.new.len(), ours as f64 / theirs as f64);
                    }
                }
            }
        }
    }
}
