//! Drives the model and the proved core side by side.

mod accounts;
mod changers;
mod commands;
mod convert;
mod count;
mod cross;
mod drive;
mod images;
mod lists;
mod logins;
mod model;
mod random;
mod script;
mod stores;
mod world;

use std::panic::{AssertUnwindSafe, catch_unwind};
use std::process::ExitCode;
use std::time::{Duration, Instant};

use script::Step;
use wire::{Header, text, words};
use world::World;

/// A run ends after this long even if calls are left.
const LIMIT: Duration = Duration::from_secs(60);

fn main() -> ExitCode {
    let arguments: Vec<String> = std::env::args().skip(1).collect();
    let words: Vec<&str> = arguments.iter().map(String::as_str).collect();
    match words[..] {
        ["--replay", file] => replay(file),
        [] | [_] | [_, _] => {
            let number = |i: usize, otherwise: u64| words.get(i).map_or(Ok(otherwise), |w| w.parse());
            match (number(0, 1_000_000), number(1, 1)) {
                (Ok(calls), Ok(seed)) => run(calls, seed),
                _ => usage(),
            }
        }
        _ => usage(),
    }
}

fn usage() -> ExitCode {
    eprintln!("usage: rust/model/run [CALLS] [SEED] | --replay FILE");
    ExitCode::from(2)
}

/// One step of both; a panic of the model's own arithmetic is a difference too.
fn step(w: &mut World, step: &Step) -> Result<Option<world::Seen>, String> {
    catch_unwind(AssertUnwindSafe(|| w.step(step))).unwrap_or_else(|_| Err("the model panicked".into()))
}

fn run(calls: u64, seed: u64) -> ExitCode {
    std::panic::set_hook(Box::new(|_| {}));
    let began = Instant::now();
    let mut counts = count::Counts::default();
    let mut driver = drive::Driver::new(seed);
    let (mut made, mut sessions) = (0u64, 0u64);
    while made < calls && began.elapsed() < LIMIT {
        sessions += 1;
        let mut w = World::new();
        let mut steps: Vec<Step> = vec![];
        let mut ahead = driver.begin();
        ahead.reverse();
        // A session is left after some hundred steps, so that scripts stay short.
        while steps.len() < 300 && made < calls {
            let Some(step) = ahead.pop().or_else(|| driver.next(&w)) else { break };
            steps.push(step.clone());
            let before = w.session;
            match self::step(&mut w, &step) {
                Err(what) => return differs(steps, &what, made, seed),
                Ok(None) => {}
                Ok(Some(seen)) => {
                    made += 1;
                    counts.note(&step, &seen, &before, &w);
                }
            }
        }
    }
    for steps in large() {
        let mut w = World::new();
        for (i, step) in steps.iter().enumerate() {
            if let Err(what) = self::step(&mut w, step) {
                return differs(steps[..=i].to_vec(), &what, made, seed);
            }
            made += step.is_call() as u64;
        }
    }
    let (mut crossed, mut kept) = (0u64, 0u64);
    let mut found = None;
    let mut w = World::new();
    cross::all(&mut |lent, session, call| {
        w.session = *session;
        w.image.clear();
        w.image.extend(lent.image);
        w.store.clear();
        w.store.extend(lent.store);
        w.accounts.clear();
        w.accounts.extend(lent.accounts);
        crossed += 1;
        let what = match step(&mut w, call) {
            Ok(seen) => {
                kept += seen.is_some_and(|s| s.given.code == 0) as u64;
                return true;
            }
            Err(what) => what,
        };
        let all = [
            Step::Accounts(lent.accounts.to_vec()),
            Step::Image(lent.image.to_vec()),
            Step::Store(lent.store.to_vec()),
            Step::Session(*session),
            call.clone(),
        ];
        found = Some((all.to_vec(), what));
        false
    });
    if let Some((steps, what)) = found {
        return differs(steps, &what, made + crossed, seed);
    }
    counts.print();
    println!("crossed: {crossed} calls, {kept} of them on sessions that keep the relation");
    println!(
        "{made} calls in {sessions} sessions and {crossed} crossed, {:.1} seconds, seed {seed}: no difference",
        began.elapsed().as_secs_f64()
    );
    let never = counts.never();
    if !never.is_empty() {
        println!("this may not be: {}", never.join("; "));
        return ExitCode::FAILURE;
    }
    let missing = counts.missing();
    if missing.is_empty() {
        println!("all {} listed cases were reached", count::wanted().len());
        return ExitCode::SUCCESS;
    }
    println!("never reached: {}", missing.join("; "));
    ExitCode::FAILURE
}

/// "at most 134,217,728": an image with a body of that many bytes, and one with one more. Too large to be met at
/// random.
fn large() -> Vec<Vec<Step>> {
    let request = |message: u32, body: &[u8]| {
        let input = Header { sequence: 7, time: 7, message, ..Header::default() }.record(body);
        Step::Request { time: 1, room: 36_864, challenge: [0; 64], made: false, list: vec![], input }
    };
    [134_217_728, 134_217_729]
        .into_iter()
        .map(|body| {
            let mut image = words(&[1, 2, 0, 0]);
            image.resize(16 + 16 + body, 0);
            vec![
                Step::Accounts(accounts::of(&accounts::both())),
                Step::Image(image),
                Step::Open { time: 1, room: 36_864, slots: [1, 0, 0, 0, 0, 0, 0, 0, 0] },
                request(0x103, &words(&[2])),
                request(0x901, &logins::by_md5(b"id", &accounts::digest(b"five5", &[0; 64], true))),
                request(0x300, &[text("tape0"), words(&[1])].concat()),
                request(0x302, &[]),
                request(0x304, &text("abc")),
            ]
        })
        .collect()
}

fn first_difference(steps: &[Step]) -> Option<(usize, String)> {
    let mut w = World::new();
    steps.iter().enumerate().find_map(|(i, s)| step(&mut w, s).err().map(|what| (i, what)))
}

/// Leaves out what the difference does not need, and writes the rest down.
fn differs(mut steps: Vec<Step>, what: &str, made: u64, seed: u64) -> ExitCode {
    let mut what = what.to_string();
    let mut again = true;
    while again {
        again = false;
        for i in (0..steps.len()).rev() {
            let mut fewer = steps.clone();
            fewer.remove(i);
            if let Some((last, found)) = first_difference(&fewer) {
                fewer.truncate(last + 1);
                (steps, what) = (fewer, found);
                again = true;
                break;
            }
        }
    }
    let script: String = steps.iter().map(|s| s.line() + "\n").collect();
    let file = format!("target/model/difference-{seed}.txt");
    println!("DIFFERENCE after {made} calls, seed {seed}; at the last line of this script:\n");
    for line in script.lines() {
        println!("{}", if line.len() > 400 { format!("{}...", &line[..400]) } else { line.to_string() });
    }
    println!("\n{what}\n");
    match std::fs::create_dir_all("target/model").and_then(|()| std::fs::write(&file, script)) {
        Ok(()) => println!("whole script: {file}; again: rust/model/run --replay {file}"),
        Err(e) => println!("{file}: {e}"),
    }
    ExitCode::FAILURE
}

fn replay(file: &str) -> ExitCode {
    let text = match std::fs::read_to_string(file) {
        Ok(text) => text,
        Err(e) => {
            eprintln!("{file}: {e}");
            return ExitCode::from(2);
        }
    };
    let mut w = World::new();
    for (i, line) in text.lines().enumerate() {
        if line.trim().is_empty() || line.starts_with('#') {
            continue;
        }
        let Some(step) = Step::parse(line, w.session) else {
            eprintln!("{file}, line {}: not a step", i + 1);
            return ExitCode::from(2);
        };
        match self::step(&mut w, &step) {
            Err(what) => {
                println!("line {}: DIFFERENCE\n{what}", i + 1);
                return ExitCode::FAILURE;
            }
            Ok(None) => {}
            Ok(Some(seen)) => {
                let g = &seen.given;
                println!(
                    "line {}: code {}, count {}, {}; sent {}",
                    i + 1,
                    g.code,
                    g.count,
                    g.rule,
                    script::hex(&g.sent)
                );
            }
        }
    }
    println!("no difference");
    ExitCode::SUCCESS
}
