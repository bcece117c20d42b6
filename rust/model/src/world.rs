//! The model and the proved core side by side: every call is made of both, and all that comes back is compared.

use crate::convert;
use crate::model::State;
use crate::model::accounts::Challenge;
use crate::model::calls::{self, Given, Kept, Lent};
use crate::model::state::EMPTY;
use crate::script::Step;
use crate::stores;
use proved::{Answer, Listed, Moved, Session};

pub struct World {
    pub session: Session,
    pub image: Vec<u8>,
    /// The store of the environment, which requests are lent.
    pub store: Vec<u8>,
    pub accounts: Vec<u8>,
    /// A challenge that was given before the newest.
    pub older: Option<Challenge>,
    /// No session was handed in but by calls.
    pub natural: bool,
    /// The core's output and destination, and the model's.
    out: Vec<u8>,
    expected: Vec<u8>,
    dest: Vec<u8>,
    expected_dest: Vec<u8>,
}

/// What one call did, for counting.
pub struct Seen {
    pub given: Given,
    pub closed_before: bool,
    /// What kind of store it was lent.
    pub store: &'static str,
}

/// Output and destination are filled with bytes that a reply is not likely to have in the same places.
fn filled(buffer: &mut Vec<u8>, n: usize) {
    buffer.clear();
    buffer.resize(n, 0xa5);
}

impl World {
    pub fn new() -> World {
        World {
            session: convert::session(&State::at_rest(EMPTY)),
            image: vec![],
            store: vec![0; stores::LENGTH],
            accounts: vec![],
            older: None,
            natural: true,
            out: vec![],
            expected: vec![],
            dest: vec![],
            expected_dest: vec![],
        }
    }

    /// Makes the call. An error tells the first difference.
    pub fn step(&mut self, step: &Step) -> Result<Option<Seen>, String> {
        match step {
            Step::Accounts(accounts) => self.accounts.clone_from(accounts),
            Step::Image(image) => self.image.clone_from(image),
            Step::Store(store) => self.store.clone_from(store),
            Step::Session(session) => {
                self.session = *session;
                self.natural = false;
            }
            Step::Request { input, .. } => read(input)?,
            _ => {}
        }
        step.room().map(|room| self.call(step, room)).transpose()
    }

    fn call(&mut self, step: &Step, room: usize) -> Result<Seen, String> {
        let before = self.session;
        filled(&mut self.out, room);
        filled(&mut self.expected, room);
        let length = if let Step::From { destination, .. } = step { *destination } else { 0 };
        filled(&mut self.dest, length);
        filled(&mut self.expected_dest, length);
        if let Step::Open { .. } = step {
            self.natural = true;
        }
        let mut s = convert::state(&before);
        let (mut image, mut store) = (self.image.clone(), self.store.clone());
        let kind = stores::kind(&store);
        let given = self.model(step, &mut s, &mut Kept { image: &mut image, store: &mut store }, room);
        let gave = self.core(step);
        self.expected[..given.sent.len()].copy_from_slice(&given.sent);
        self.session = gave.session;
        if before.login.challenged && self.session.login.challenge != before.login.challenge {
            self.older = Some(before.login.challenge);
        }

        let mut wrong = differences(&given, &convert::session(&s), &gave);
        bytes("output", &self.expected, &self.out, &mut wrong);
        bytes("image", &image, &self.image, &mut wrong);
        bytes("store", &store, &self.store, &mut wrong);
        bytes("destination", &self.expected_dest, &self.dest, &mut wrong);
        if !wrong.is_empty() {
            wrong.push(format!("(the model's rule: {})", given.rule));
            return Err(wrong.join("\n"));
        }
        Ok(Seen { given, closed_before: before.closed, store: kind })
    }

    /// The call made of the model, with an image, a store and a session of its own.
    fn model(&mut self, step: &Step, s: &mut State, kept: &mut Kept, room: usize) -> Given {
        let Kept { image, .. } = &mut *kept;
        match step {
            Step::Open { time, slots, .. } => {
                let (next, given) = calls::open(slots, *time, room);
                *s = next;
                given
            }
            Step::Request { time, challenge, made, list, input, .. } => {
                let lent = Lent { accounts: &self.accounts, challenge, addresses: list, made: *made };
                calls::request(s, &lent, kept, input, *time, room)
            }
            Step::To { time, last, stream, .. } => calls::move_to_tape(s, image, stream, *last, *time, room),
            Step::From { time, .. } => calls::move_from_tape(s, image, &mut self.expected_dest, *time, room),
            Step::End { time, ok, .. } => calls::end_method(s, *ok, *time, room),
            Step::Made { time, mover, .. } => calls::made(s, *mover, *time, room),
            Step::Lost { time, mover, .. } => calls::lost(s, *mover, *time, room),
            Step::Rmt { command, .. } => calls::rmt(s, image, command, room),
            Step::Listing { .. } => calls::listing(&self.accounts, room),
            Step::Accounts(_) | Step::Image(_) | Step::Store(_) | Step::Session(_) => unreachable!("is no call"),
        }
    }

    /// The call made of the core.
    fn core(&mut self, step: &Step) -> Moved {
        let (s, image, store, out) = (self.session, &mut self.image, &mut self.store, &mut self.out);
        let answer = match step {
            Step::Open { time, slots, .. } => proved::open(slots, *time, out),
            Step::Request { time, challenge, made, list, input, .. } => {
                proved::request(s, &self.accounts, challenge, list, *made, image, store, input, *time, out)
            }
            Step::To { time, last, stream, .. } => {
                return proved::move_to_tape(s, image, stream, *last, *time, out);
            }
            Step::From { time, .. } => return proved::move_from_tape(s, image, &mut self.dest, *time, out),
            Step::End { time, ok, .. } => proved::end_method(s, *ok, *time, out),
            Step::Made { time, mover, .. } => proved::made(s, *mover, *time, out),
            Step::Lost { time, mover, .. } => proved::lost(s, *mover, *time, out),
            Step::Rmt { command, .. } => proved::rmt(s, image, command, out),
            // It is lent no session, and gives none.
            Step::Listing { .. } => {
                let Listed { code, len } = proved::accounts(&self.accounts, out);
                Answer { code, len, session: s }
            }
            Step::Accounts(_) | Step::Image(_) | Step::Store(_) | Step::Session(_) => unreachable!("is no call"),
        };
        let Answer { code, len, session } = answer;
        Moved { code, count: 0, len, session }
    }
}

/// Numbers that are not the same; the session by its fields.
fn differences(given: &Given, next: &Session, gave: &Moved) -> Vec<String> {
    let mut wrong = vec![];
    let mut same = |what: &str, model: u64, core: u64| {
        if model != core {
            wrong.push(format!("{what}: model {model}, core {core}"));
        }
    };
    same("code", given.code as u64, gave.code as u64);
    same("count", given.count as u64, gave.count as u64);
    same("length", given.sent.len() as u64, gave.len as u64);
    for ((name, model), (_, core)) in convert::fields(next).into_iter().zip(convert::fields(&gave.session)) {
        same(name, model, core);
    }
    wrong
}

/// Every record is also given to the reader of addresses. What is past its count is zero.
fn read(input: &[u8]) -> Result<(), String> {
    let model = calls::addresses(input);
    let core = proved::addresses(input);
    let mut all = model.clone();
    all.resize(core.hosts.len(), (0, 0));
    let same = core.count as usize == model.len() && core.hosts.into_iter().zip(core.ports).eq(all);
    if same { Ok(()) } else { Err(format!("addresses: model {model:x?}, core {core:x?}")) }
}

fn bytes(what: &str, model: &[u8], core: &[u8], wrong: &mut Vec<String>) {
    if model != core {
        let i = model.iter().zip(core).position(|(a, b)| a != b).unwrap_or(0);
        let near = |b: &[u8]| crate::script::hex(&b[i..(i + 8).min(b.len())]);
        wrong.push(format!("{what} from byte {i}: model {}, core {}", near(model), near(core)));
    }
}
