//! The C library and the programs loader and wake against a model written from the papers alone: the
//! image's end, the limit of its blocks, stored states of an older form, what blocks cost, worst
//! cases, flashes that others have touched and Intel HEX by hand, and random lists of messages and
//! budgets, between which others touch the flash, what is read off each state, the boot check,
//! sender calls, digests, verdicts, Intel HEX texts, bundles and inputs of wake.
//!
//! `model [CALLS [SEED]]`: CALLS messages to devices (200,000 if not given), and of the other calls
//! a share of it.

mod altered;
mod budget;
mod bundles;
mod capi;
mod compare;
mod costs;
mod coverage;
mod craft;
mod damage;
mod device;
mod edge;
mod ends;
mod fault;
mod functions;
mod handed;
mod handmade;
mod hexcall;
mod hexcases;
mod hexdamage;
mod hexhand;
mod hextexts;
mod ihex;
mod layout;
mod lending;
mod lengths;
mod lent;
mod limit;
mod lists;
mod lms;
mod loader;
mod manifest;
mod orders;
mod pair;
mod plan;
mod readers;
mod regions;
mod rfc8554;
mod rng;
mod selftest;
mod sender;
mod sha256;
mod signer;
mod stored;
mod touch;
mod tree;
mod wake;
mod wakes;
mod worst;

use std::collections::BTreeMap;
use std::thread;
use std::time::{SystemTime, UNIX_EPOCH};

use altered::Altered;
use bundles::Bundles;
use compare::Compared;
use coverage::Coverage;
use craft::Image;
use fault::Place;
use handmade::Case;
use lists::List;
use manifest::BLOCK_LENGTHS;
use rng::Rng;
use signer::Signer;

/// The lists are dealt out to so many threads, in turn.
const THREADS: u64 = 2;

/// One list in so many has a large image: an odd number, so that each thread has such lists.
const LARGE: u64 = 101;

/// With so many calls every case is sure to occur; with fewer a rare one may not.
const ENOUGH: u64 = 100_000;

struct Test<'a> {
    seed: u64,
    signers: &'a [[Signer; 2]],
    coverage: Coverage,
    bundle_ends: BTreeMap<String, u64>,
    passed: u64,
    failed: u64,
}

impl<'a> Test<'a> {
    fn new(seed: u64, signers: &'a [[Signer; 2]]) -> Test<'a> {
        Test {
            seed,
            signers,
            coverage: Coverage::new(),
            bundle_ends: BTreeMap::new(),
            passed: 0,
            failed: 0,
        }
    }
}

/// Two keys for each pair of types.
fn signers(seed: u64) -> Vec<[Signer; 2]> {
    let mut rng = Rng::new(seed, 0);
    let types = (5..=9).flat_map(|tree| [(tree, 3), (tree, 4)]);
    types
        .map(|(tree, ots)| [(); 2].map(|()| Signer::new(&mut rng, tree, ots)))
        .collect()
}

/// The image, before what was wrong with it.
fn named(image: &Image) -> impl Fn(String) -> String + use<> {
    let (length, block_length) = (image.bytes.len(), image.block_length);
    move |what| format!("L {block_length}, T {length}: {what}")
}

impl Test<'_> {
    /// This is what is compared next.
    fn at(&self, group: &'static str, list: u64, index: usize) {
        let seed = self.seed;
        fault::at(Place {
            group,
            list,
            index,
            seed,
        });
    }

    /// Counts the comparison; the first difference is printed with all that is needed to see it
    /// again.
    fn record(&mut self, result: Compared<()>) -> bool {
        match &result {
            Ok(()) => self.passed += 1,
            Err(what) => {
                if self.failed == 0 {
                    println!("DIFFERENCE in {}: {what}", fault::place());
                }
                self.failed += 1;
            }
        }
        result.is_ok()
    }

    fn self_test(&mut self) {
        for (index, (what, holds)) in selftest::run().into_iter().enumerate() {
            self.at("self test", 0, index);
            self.record(holds.then_some(()).ok_or(format!("{what} of the model")));
        }
    }

    /// The image's end, with the library's device and sender and with the loader.
    fn by_hand(&mut self) {
        let bundles = Bundles::new();
        let signer = &self.signers[0][0];
        let mut rng = Rng::new(self.seed, u64::MAX - 2);
        self.at("one byte by hand", 0, 0);
        let result = handmade::one_byte(Rng::new(self.seed, u64::MAX - 3), signer);
        self.record(result);
        for (index, length) in BLOCK_LENGTHS.into_iter().enumerate() {
            self.at("longest images by hand", 0, index);
            let result = bundles.longest_images(&mut rng, signer, length as usize);
            self.record(result);
        }
        for (index, image) in handmade::images(&mut rng).into_iter().enumerate() {
            let named = named(&image);
            self.at("loader by hand", 0, index);
            let result = bundles.last_blocks(&mut rng, signer, &image);
            self.record(result.map_err(&named));
            self.at("device by hand", 0, index);
            let case_rng = Rng::new(self.seed, rng.next());
            let result = Case::new(case_rng, signer, image).run();
            self.record(result.map_err(named));
        }
    }

    /// The limit, and stored states of an older form.
    fn limit_by_hand(&mut self) {
        let signer = &self.signers[0][0];
        let mut rng = Rng::new(self.seed, u64::MAX - 6);
        for (index, length) in BLOCK_LENGTHS.into_iter().enumerate() {
            for case in [limit::sizes, handed::counts, handed::next_numbers] {
                self.at("limit by hand", 0, index);
                let result = case(&mut rng, signer, length as usize);
                self.record(result.map_err(|what| format!("L {length}: {what}")));
            }
        }
        for (index, case) in [limit::carried, limit::longest_messages].iter().enumerate() {
            self.at("messages at the limit", 0, index);
            let result = case(&mut rng, signer);
            self.record(result);
        }
        for (index, length) in limit::DOWNLOADS.into_iter().enumerate() {
            self.at("download at the limit", 0, index);
            let result = limit::download(&mut rng, signer, length);
            self.record(result);
        }
        self.counted("stored states", |record| stored::run(&mut rng, record));
    }

    /// A group that hands over its results one by one.
    fn counted(&mut self, group: &'static str, run: impl FnOnce(&mut dyn FnMut(Compared<()>))) {
        let mut index = 0;
        self.at(group, 0, index);
        run(&mut |result| {
            self.record(result);
            index += 1;
            self.at(group, 0, index);
        });
    }

    fn touched_by_hand(&mut self) {
        let mut rng = Rng::new(self.seed, u64::MAX - 5);
        for (index, image) in altered::images(&mut rng).into_iter().enumerate() {
            let named = named(&image);
            self.at("touched flash by hand", 0, index);
            let case = Case::new(Rng::new(self.seed, rng.next()), &self.signers[0][0], image);
            let result = Altered::new(case).and_then(|mut altered| altered.run());
            self.record(result.map_err(named));
        }
    }

    fn costs_by_hand(&mut self) {
        let signer = &self.signers[0][0];
        let mut rng = Rng::new(self.seed, u64::MAX - 7);
        for (index, case) in [costs::numbers, costs::most_blocks].iter().enumerate() {
            self.at("costs", 0, index);
            let result = case(&mut rng, signer);
            self.record(result);
        }
        for (index, image) in costs::images(&mut rng).into_iter().enumerate() {
            let named = named(&image);
            self.at("budgets by hand", 0, index);
            let case = Case::new(Rng::new(self.seed, rng.next()), signer, image);
            let result = Altered::new(case).and_then(|mut altered| altered.budgets());
            self.record(result.map_err(named));
        }
    }

    fn worst_cases(&mut self) {
        let signers = self.signers;
        let mut rng = Rng::new(self.seed, u64::MAX - 8);
        self.counted("chain steps", |record| worst::chain_steps(&mut rng, record));
        self.counted("first messages", |record| {
            worst::first_messages(&mut rng, &signers[0][0], record)
        });
        for (index, [signer, _]) in signers.iter().enumerate() {
            self.at("what verdicts take", 0, index);
            let result = worst::verdict(&mut rng, signer);
            self.record(result);
        }
    }

    fn texts(&mut self, calls: u64) {
        let mut rng = Rng::new(self.seed, u64::MAX - 4);
        self.counted("Intel HEX by hand", |record| hexhand::run(&mut rng, record));
        for index in 0..calls as usize / 4 {
            self.at("Intel HEX", 0, index);
            let result = hexcall::random(&mut rng, &mut self.coverage);
            self.record(result);
        }
    }

    /// At most so many messages of a list. It ends at its first difference: behind it the two
    /// devices are in different states.
    fn list(&mut self, number: u64, most: u64) {
        let large = number % LARGE == 7;
        self.at("fresh", number, 0);
        let mut list = match List::new(Rng::new(self.seed, number), self.signers, large) {
            Ok(list) => list,
            Err(what) => {
                self.record(Err(what));
                return;
            }
        };
        for index in 0..list.length().min(most as usize) {
            self.at("lists", number, index);
            let result = list.step(&mut self.coverage);
            if !self.record(result) {
                break;
            }
        }
    }

    /// This thread's lists, the first of which is this one, up to so many messages.
    fn share(mut self, first: u64, calls: u64) -> Self {
        let mut number = first;
        while self.passed < calls && self.failed < 100 {
            self.list(number, calls - self.passed);
            number += THREADS;
        }
        self
    }

    fn lists(&mut self, calls: u64) {
        println!("lists of messages to devices");
        let (seed, signers) = (self.seed, self.signers);
        let part = |k| {
            let share = calls * k / THREADS - calls * (k - 1) / THREADS;
            Test::new(seed, signers).share(k, share)
        };
        thread::scope(|scope| {
            let start = |k| scope.spawn(move || part(k));
            let threads: Vec<_> = (1..=THREADS).map(start).collect();
            for thread in threads {
                let part = thread.join().expect("a thread that ends");
                self.coverage.add(part.coverage);
                self.passed += part.passed;
                self.failed += part.failed;
            }
        });
    }

    fn functions(&mut self, calls: u64) {
        let mut rng = Rng::new(self.seed, u64::MAX);
        for index in 0..calls as usize / 3 {
            self.at("sender", 0, index);
            let result = functions::sender_call(&mut rng, &mut self.coverage);
            self.record(result);
        }
        for index in 0..calls as usize / 20 {
            self.at("digest", 0, index);
            let result = functions::digest_call(&mut rng);
            self.record(result);
        }
        let beyond = [(); 2].map(|()| Signer::beyond(&mut rng, 5, 3));
        for index in 0..calls as usize / 50 {
            self.at("verify", 0, index);
            let pair = self.signers.get(index % (self.signers.len() + 1));
            let pair = pair.unwrap_or(&beyond);
            let result = functions::verify_call(&mut rng, &mut self.coverage, pair);
            self.record(result);
        }
    }

    fn bundles(&mut self, runs: u64) {
        let mut rng = Rng::new(self.seed, u64::MAX - 1);
        let bundles = Bundles::new();
        for index in 0..runs as usize {
            self.at("loader", 0, index);
            let signer = &self.signers[index % self.signers.len()][0];
            let result = bundles.random(&mut rng, signer);
            if let Ok(end) = &result {
                *self.bundle_ends.entry(end.clone()).or_default() += 1;
            }
            self.record(result.map(|_| ()));
        }
    }

    fn wakes(&mut self, runs: u64) {
        let mut rng = Rng::new(self.seed, u64::MAX - 9);
        let mut inputs = wakes::by_hand(&mut rng);
        inputs.extend((0..runs).map(|_| wakes::random(&mut rng)));
        for (index, (form, input)) in inputs.iter().enumerate() {
            self.at("wake", 0, index);
            let result = wakes::compare(*form, input, &mut self.coverage);
            self.record(result);
        }
    }

    /// Prints what occurred; each case that never did counts as failed, where it had to.
    fn report(&mut self, calls: u64) {
        let missing = self.coverage.report();
        if missing > 0 {
            println!("{missing} cases of the rules never occurred");
        }
        if calls >= ENOUGH {
            self.failed += missing;
        }
        let ends: Vec<String> = self
            .bundle_ends
            .iter()
            .map(|(end, count)| format!("{end}: {count}"))
            .collect();
        println!("loader runs that ended in {}", ends.join(", "));
    }
}

fn main() {
    let mut arguments = std::env::args()
        .skip(1)
        .map(|a| a.parse().expect("a number"));
    let calls: u64 = arguments.next().unwrap_or(200_000);
    let clock = SystemTime::now().duration_since(UNIX_EPOCH);
    let seed = arguments
        .next()
        .unwrap_or(clock.expect("a clock past 1970").as_nanos() as u64);
    println!("seed {seed}");
    let signers = signers(seed);
    let mut test = Test::new(seed, &signers);
    fault::tell_of_faults();
    test.self_test();
    println!("the image's end");
    test.by_hand();
    println!("the limit");
    test.limit_by_hand();
    println!("what blocks cost");
    test.costs_by_hand();
    println!("worst cases");
    test.worst_cases();
    println!("flashes that others have touched");
    test.touched_by_hand();
    test.lists(calls);
    println!("sender, digest, verdict");
    test.functions(calls);
    println!("Intel HEX");
    test.texts(calls);
    println!("loader");
    test.bundles((calls / 400).clamp(1, 2000));
    println!("wake");
    test.wakes((calls / 400).clamp(1, 2000));
    test.report(calls);
    println!("{} passed, {} failed", test.passed, test.failed);
    std::process::exit((test.failed > 0) as i32);
}
