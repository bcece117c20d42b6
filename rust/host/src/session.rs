//! One connection: each record goes to the core, and what the core writes goes to the client.
use crate::frames::{End, Frames};
use crate::line::{Line, Over, Result, Shared, seconds};
use crate::server::Leaves;
use crate::steps;
use crate::sys;
use crate::variables;
use crate::wishes::{self, Wishes};
use proved::{Data, OUTPUT, codes};
use std::net::TcpStream;
use std::sync::atomic::Ordering;
use std::time::{Duration, Instant};
use wire::{HEADER, Header, message, word_at};

/// An answer to a wrong login comes so late; after so many the connection ends.
const WRONG_LOGIN: Duration = Duration::from_secs(1);
const MOST_WRONG: usize = 3;
/// Replies that wait for one sync are not more than this.
const MOST_WAITING: usize = 256;

/// A connection, and what it does of itself besides its session.
pub struct Connection<'a> {
    line: Line<'a>,
    /// Counted as one that is not logged in, until it is.
    stranger: Option<Leaves>,
    since: Instant,
    wrong: usize,
    /// Whether it was told that its client logs in by text.
    withdrawn: bool,
    /// Writes that were answered in memory; and the answers, which wait until all of them are on the disk.
    writes: Vec<Vec<u8>>,
    replies: Vec<u8>,
}

/// Serves a connection until it ends. An error is a reason to end it.
pub fn serve(socket: TcpStream, shared: &Shared, number: usize, stranger: Leaves) -> Result<()> {
    let told = |e: std::io::Error| Over::Gone(e.to_string());
    socket.set_nodelay(true).map_err(told)?;
    socket.set_write_timeout(Some(shared.limits.send)).map_err(told)?;
    sys::keep_alive(&socket).map_err(told)?;
    let mut frames = Frames::new(socket.try_clone().map_err(told)?);
    let mut out = vec![0; OUTPUT];
    let opened = proved::open(&shared.vault.slots(), seconds(), &mut out);
    if opened.code != 0 {
        return Err(Over::Failed(format!("the core refused to open a session with {}", opened.code)));
    }
    let peer = socket.peer_addr().map_or("?".into(), |a| a.to_string());
    let core = opened.session;
    let line = Line::new(socket, shared, number, core, out);
    if let Some(watch) = &shared.watch {
        watch.came(number, peer, core);
    }
    let since = Instant::now();
    let mut c = Connection {
        line,
        stranger: Some(stranger),
        since,
        wrong: 0,
        withdrawn: false,
        writes: Vec::new(),
        replies: Vec::new(),
    };
    c.line.send(opened.len)?;
    while !shared.ending.load(Ordering::SeqCst) {
        // Moves go on as long as the client says nothing. What they tell comes after the answers that wait.
        let more = c.replies.is_empty() && steps::step(&mut c.line)?;
        let speaks = frames.waiting();
        if !more && !speaks && c.line.ends.any() {
            c.line.wait()?;
        } else if (speaks || !more) && (!c.next(&mut frames)? || c.line.core.closed) {
            return Ok(());
        }
    }
    Err(Over::Gone("ended with the vault".into()))
}

/// The message number of a record.
fn number(record: &[u8]) -> u32 {
    Header::of(record).map_or(0, |h| h.message)
}

/// Whether a record, if it is accepted, writes to the tape: a tape write, or MTIO's marks.
pub fn writes(record: &[u8]) -> bool {
    match number(record) {
        message::TAPE_WRITE => true,
        message::TAPE_MTIO => word_at(record, HEADER) == Some(codes::WRITE_MARKS),
        _ => false,
    }
}

/// The error that a reply tells. 12 and 13 tell how a tape request went, and are none.
fn refusal(reply: &[u8]) -> Option<u32> {
    let header = Header::of(reply).filter(|h| h.kind == 1)?;
    // These two have a word before it.
    let before = matches!(header.message, message::TAPE_GET_STATE | message::DATA_GET_STATE) as usize;
    let told = if header.error != 0 { header.error } else { word_at(reply, HEADER + 4 * before).unwrap_or(0) };
    (!matches!(told, 0 | codes::AT_MARK | codes::AT_END)).then_some(told)
}

/// Who a login is for.
fn login_of(record: &[u8]) -> String {
    variables::quoted(&wishes::login(record).unwrap_or_default())
}

/// The client of a request that was refused for its auth type, where that is text.
fn by_text(record: &[u8], error: u32) -> Option<String> {
    let text = error == codes::ILLEGAL_ARGUMENTS && word_at(record, HEADER) == Some(codes::TEXT_AUTH);
    match number(record) {
        message::CONNECT_CLIENT_AUTH if text => Some(format!("client of {}", login_of(record))),
        message::CONFIG_GET_AUTH_ATTR if text => Some("client".into()),
        _ => None,
    }
}

impl Connection<'_> {
    /// The next record, which is waited for. False if the client has closed the connection.
    fn next(&mut self, frames: &mut Frames) -> Result<bool> {
        let limits = self.line.shared.limits;
        let (idle, until, why) = if !self.line.core.login.authorized {
            (limits.login, Some(self.since + limits.login), "not logged in within")
        } else {
            let (idle, why) = self.line.patience();
            (idle, None, why)
        };
        match frames.read(idle, until) {
            Ok(()) => {}
            Err(End::Closed) => return Ok(false),
            Err(End::Silent) => return Err(Over::Gone(format!("ended: {why} {} seconds", idle.as_secs()))),
            Err(end) => return Err(Over::Gone(format!("connection ended: {end:?}"))),
        }
        self.line.heard = Instant::now();
        let more = self.writes.len() < MOST_WAITING && frames.next().is_some_and(writes);
        self.request(frames.record(), more)?;
        Ok(true)
    }

    /// What is done before the core is asked.
    fn prepare(&mut self, record: &[u8]) -> Result<()> {
        let line = &mut self.line;
        // What a move did may be told by the reply.
        if line.unstored > 0
            && let Err(why) = line.store()
        {
            line.medium_failed(why)?;
        }
        match number(record) {
            // No other request reads the image while the tape is closed.
            message::TAPE_OPEN if line.held.is_none() && line.core.login.authorized => line.take()?,
            message::SCSI_OPEN if !line.has_changer && line.core.login.authorized => line.take_changer()?,
            // No other request looks at the places.
            message::SCSI_EXECUTE_CDB if line.core.changer.opened => line.look()?,
            // No other request is given one, so none fails where the system has no randomness; this one ends the
            // connection there, and no client gets a challenge that could be foreseen.
            message::CONFIG_GET_AUTH_ATTR => {
                sys::random(&mut line.challenge).map_err(|e| format!("no challenge could be drawn: {e}"))?;
            }
            _ => {}
        }
        Ok(())
    }

    /// One record from the client. What it changed is on the disk before the reply goes out; where `more` writes follow
    /// that were read together with it, all of them become so at once.
    fn request(&mut self, record: &[u8], more: bool) -> Result<()> {
        self.prepare(record)?;
        let line = &mut self.line;
        let (before, was) = (line.core.tape.position, line.core.source.state);
        let done = line.answer(record);
        line.became(done.code, done.session, writes(record).then_some(before))?;
        let refused = refusal(&line.out[..done.len]);
        self.replies.extend(&line.out[..done.len]);
        // What is no request is not answered.
        let login = number(record) == message::CONNECT_CLIENT_AUTH && done.len > 0;
        let wrong = login && refused == Some(codes::NOT_AUTHORIZED);
        if wrong {
            self.wrong_login(record);
        } else {
            self.tell(record, done.len, was, login);
        }
        if writes(record) {
            self.writes.push(record.to_vec());
            if more {
                return Ok(());
            }
        }
        self.settle(record)?;
        if self.line.core.login.authorized {
            self.stranger = None;
        }
        if wrong && self.wrong >= MOST_WRONG {
            return Err(Over::Gone(format!("ended: {MOST_WRONG} wrong logins")));
        }
        Ok(())
    }

    /// A wrong login is told, and answered late.
    fn wrong_login(&mut self, record: &[u8]) {
        self.wrong += 1;
        let (id, peer) = (login_of(record), self.line.peer());
        self.line.progress.error(format_args!("wrong login as {id} by MD5 from {peer}"));
        std::thread::sleep(WRONG_LOGIN);
    }

    /// Whether the file follows now: after each write; or, where that was asked for, at marks, rewind and close only.
    fn is_due(&self, record: &[u8]) -> bool {
        let at_rest = match number(record) {
            message::TAPE_CLOSE | message::CONNECT_CLOSE => true,
            message::TAPE_MTIO => {
                let op = word_at(record, HEADER);
                matches!(op, Some(codes::WRITE_MARKS | codes::REWIND_TAPE | codes::OFF_LINE))
            }
            _ => false,
        };
        if self.line.shared.marks { at_rest } else { !self.writes.is_empty() }
    }

    /// What was answered is on the disk, and then the answers go out.
    fn settle(&mut self, record: &[u8]) -> Result<()> {
        self.line.sure()?;
        if self.is_due(record)
            && let Err(why) = self.line.store()
        {
            self.medium_failed(why, record)?;
        }
        self.writes.clear();
        self.line.keep()?;
        if !self.line.core.tape.opened {
            self.line.hand_back();
        }
        if !self.line.core.changer.opened {
            self.line.hand_back_changer();
        }
        let replies = std::mem::take(&mut self.replies);
        self.line.send_all(&replies)
    }

    /// The file could not follow. The session goes back to what the client was told, and the core answers each of these
    /// requests as for a medium that is not sound: with an error. Where it has no such answer the connection ends.
    fn medium_failed(&mut self, why: Over, record: &[u8]) -> Result<()> {
        let line = &mut self.line;
        line.sure()?;
        line.progress.error(&why);
        line.back();
        let mut records = std::mem::take(&mut self.writes);
        if records.is_empty() {
            records.push(record.to_vec());
        }
        self.replies.clear();
        for record in records {
            let held = line.held.take();
            let done = line.ask(&record);
            line.held = held;
            line.became(done.code, done.session, None)?;
            if refusal(&line.out[..done.len]).is_none() {
                return Err(why);
            }
            self.replies.extend(&line.out[..done.len]);
        }
        Ok(())
    }

    /// Refusals, logins, and wishes that are not followed.
    fn tell(&mut self, record: &[u8], len: usize, was: u32, login: bool) {
        let line = &mut self.line;
        let message = number(record);
        let answer = &line.out[..len];
        if let Some(error) = refusal(answer) {
            let (name, meaning) = (message::name(message), crate::client::meaning(error));
            let mut why = format!("refused: {name} (0x{message:03x}) with {error}{meaning}");
            let text = by_text(record, error);
            if let Some(client) = &text {
                let peer = line.peer();
                why += &format!(": text login is withdrawn; the {client} at {peer} is to log in by MD5");
            }
            // Once also when all else is quiet: such a client would stay outside, and nobody would know why.
            match text {
                Some(_) if !std::mem::replace(&mut self.withdrawn, true) => line.progress.error(why),
                _ => line.progress.line(why),
            }
        } else if let Some(why) = line.refused_move(record, answer) {
            line.progress.line(why);
        } else if login {
            line.progress.line(format_args!("logged in as {} by MD5", login_of(record)));
        } else if was != Data::ACTIVE && line.core.source.state == Data::ACTIVE {
            line.started(record);
        }
    }
}

impl Line<'_> {
    /// Where the client is.
    fn peer(&self) -> String {
        self.socket.peer_addr().map_or("?".into(), |a| a.to_string())
    }

    /// A start was accepted, and the store has its variables.
    fn started(&mut self, record: &[u8]) {
        let pairs = variables::pairs(&self.variables).unwrap_or_else(|| {
            self.progress.error("the variables were not kept as they should be");
            Vec::new()
        });
        let what = self.core.source.operation_name();
        if !pairs.is_empty() {
            self.progress.line(format_args!("{what} starts with {}", variables::told(&pairs)));
        }
        self.wishes = Wishes::of(&pairs, record);
        self.unfollowed();
    }

    /// Says what the client asked for and does not get.
    fn unfollowed(&self) {
        let backup = self.core.source.operation == Data::BACKUP;
        let (path, does, option) = match (backup, &self.shared.stream, &self.shared.restore_to) {
            (true, Some(path), _) => (path, "backs up", "--stream"),
            (false, _, Some(path)) => (path, "restores to", "--restore-to"),
            // The method fails, and says why.
            _ => return,
        };
        let others = self.wishes.others(path, backup);
        if !others.is_empty() {
            let (asked, path) = (others.join(" and "), path.display());
            self.progress.line(format_args!("asks for {asked}; the vault {does} {path}, as {option} says"));
        }
        if self.wishes.names.iter().any(|n| n.moved) {
            let path = path.display();
            self.progress.line(format_args!(
                "asks for other places or names; the vault restores to {path}, by the names of the archive"
            ));
        }
    }
}
