//! Backup and recover, end to end.
mod common;
use common::*;
use std::fs;
use std::io::Write;

#[test]
fn folder_comes_back() {
    let s = Scratch::new();
    let (from, to, tape) = (s.folder("from"), s.folder("to"), s.path("tape"));
    sample(&from);
    let options = ["--new-cartridge", "4M", "--stream", from.to_str().unwrap(), "--restore-to", to.to_str().unwrap()];
    let host = Host::start(&tape, &options);
    let mut c = host.login();
    let Ended { pauses, why } = c.backup(10_240, 102_400).unwrap();
    assert_eq!(why, DONE);
    assert!(pauses >= 2, "{pauses} pauses");
    assert!(sound(&fs::read(&tape).unwrap()).unwrap().0 > 30);
    let Ended { pauses, why } = c.recover(10_240, 102_400).unwrap();
    assert_eq!(why, DONE);
    assert!(pauses >= 2, "{pauses} pauses");
    assert_eq!(tree(&from), tree(&to));
}

#[test]
fn several_record_sizes_and_one_large_window() {
    let s = Scratch::new();
    let (from, tape) = (s.folder("from"), s.path("tape"));
    sample(&from);
    fs::write(from.join("big"), noise(9, 3_000_000)).unwrap();
    let to = s.folder("to");
    let options = ["--new-cartridge", "8M", "--stream", from.to_str().unwrap(), "--restore-to", to.to_str().unwrap()];
    let host = Host::start(&tape, &options);
    for record in [1_000, 4_096, 32_768] {
        let window = record as u64 * 5_000;
        let mut c = host.login();
        // From the tape's start each time: the list is cut there and the room used again.
        assert_eq!(c.backup(record, window).unwrap(), ended(0, DONE));
        assert_eq!(c.recover(record, window).unwrap(), ended(0, DONE));
        assert_eq!(tree(&from), tree(&to));
        sound(&fs::read(&tape).unwrap()).unwrap();
        fs::remove_dir_all(&to).unwrap();
        fs::create_dir(&to).unwrap();
    }
}

/// 02 No. 9: "Small programs never send set record size".
#[test]
fn client_that_sets_no_record_size() {
    let s = Scratch::new();
    let (from, to, tape) = (s.folder("from"), s.folder("to"), s.path("tape"));
    sample(&from);
    let options = ["--new-cartridge", "4M", "--stream", from.to_str().unwrap(), "--restore-to", to.to_str().unwrap()];
    let host = Host::start(&tape, &options);
    let mut c = host.login();
    let size = |c: &mut Client| word(&c.good(MOVER_GET_STATE, b"").unwrap(), 20);
    assert_eq!(size(&mut c), Mover::FIRST_SIZE);
    // No window yet, and one that is no multiple.
    c.tape_open(TO_WRITE).unwrap();
    let listen = words(&[Mover::TO_TAPE, codes::LOCAL_ADDRESS]);
    assert_eq!(c.call(MOVER_LISTEN, &listen).unwrap().first(), codes::PRECONDITION);
    assert_eq!(c.call(MOVER_SET_WINDOW, &quads(&[0, 1_024])).unwrap().first(), codes::ILLEGAL_ARGUMENTS);
    c.tape_close().unwrap();
    for mode in [Mover::TO_TAPE, Mover::FROM_TAPE] {
        let backup = mode == Mover::TO_TAPE;
        c.tape_open(if backup { TO_WRITE } else { TO_READ }).unwrap();
        c.join_as_sized(mode, 102_400).unwrap();
        if backup {
            c.start_backup().unwrap()
        } else {
            c.start_recover().unwrap()
        }
        let Ended { pauses, why } = c.run(102_400, |_| ()).unwrap();
        assert_eq!(why, DONE);
        assert!(pauses >= 2, "{pauses} pauses");
        c.finish().unwrap();
        assert_eq!(size(&mut c), Mover::FIRST_SIZE);
    }
    let (n, used) = sound(&fs::read(&tape).unwrap()).unwrap();
    assert!(n > 30, "{n} records");
    assert_eq!(used, n * Mover::FIRST_SIZE as u64);
    assert_eq!(tree(&from), tree(&to));
}

#[test]
fn window_with_no_end() {
    let s = Scratch::new();
    let (from, tape) = (s.folder("from"), s.path("tape"));
    sample(&from);
    fs::write(from.join("big"), noise(9, 3_000_000)).unwrap();
    let to = s.folder("to");
    let options = ["--new-cartridge", "8M", "--stream", from.to_str().unwrap(), "--restore-to", to.to_str().unwrap()];
    let host = Host::start(&tape, &options);
    let mut c = host.login();
    // 10,240 does not divide it.
    assert_eq!(c.backup(10_240, Mover::ENDLESS).unwrap(), ended(0, DONE));
    let written = sound(&fs::read(&tape).unwrap()).unwrap();
    assert!(written.0 > 300 && written.1 == written.0 * 10_240, "{written:?}");
    assert_eq!(c.recover(10_240, Mover::ENDLESS).unwrap(), ended(0, DONE));
    assert_eq!(tree(&from), tree(&to));
    // Its bounds are those of the rules: the offset is a multiple, and get state gives the length as sent.
    let refused = c.call(MOVER_SET_WINDOW, &quads(&[512, Mover::ENDLESS])).unwrap();
    assert_eq!(refused.first(), codes::ILLEGAL_ARGUMENTS);
    c.window(20_480, Mover::ENDLESS).unwrap();
    let state = c.good(MOVER_GET_STATE, b"").unwrap();
    assert_eq!((quad(&state, 52), quad(&state, 60)), (20_480, Mover::ENDLESS));
}

#[test]
fn file_comes_back() {
    let s = Scratch::new();
    let (from, to, tape) = (s.path("from"), s.path("to"), s.path("tape"));
    let bytes = noise(5, 100_000);
    fs::write(&from, &bytes).unwrap();
    let options = ["--new-cartridge", "1M", "--stream", from.to_str().unwrap(), "--restore-to", to.to_str().unwrap()];
    let host = Host::start(&tape, &options);
    let mut c = host.login();
    assert_eq!(c.backup(1_024, 51_200).unwrap().why, DONE);

    assert_eq!(c.recover(1_024, 10_240).unwrap().why, DONE);
    assert_eq!(fs::read(&to).unwrap(), bytes);
    // A client that knows how long the stream is says it in a mover read of its own.
    let length = archive(&from).len() as u64;
    for (asked, why) in [(length, DONE), (length - 1, FAILED), (60_000, FAILED)] {
        fs::write(&to, b"stood there").unwrap();
        c.tape_open(TO_READ).unwrap();
        c.join(1, 1_024, 1_024_000).unwrap();
        c.good(MOVER_READ, &quads(&[0, asked])).unwrap();
        c.start_recover().unwrap();
        assert_eq!(c.run(0, |_| ()).unwrap(), ended(0, why));
        assert_eq!(fs::read(&to).unwrap(), if why == DONE { &bytes[..] } else { b"stood there" });
        c.finish().unwrap();
    }
}

#[test]
fn tape_outlives_the_host() {
    let s = Scratch::new();
    let (from, to, tape) = (s.folder("from"), s.folder("to"), s.path("tape"));
    sample(&from);
    let host = Host::start(&tape, &["--new-cartridge", "4M", "--stream", from.to_str().unwrap()]);
    let mut c = host.login();
    assert_eq!(c.backup(8_192, 81_920).unwrap().why, DONE);
    drop(host);
    let host = Host::start(&tape, &["--restore-to", to.to_str().unwrap()]);
    let mut c = host.login();
    assert_eq!(c.recover(8_192, 81_920).unwrap().why, DONE);
    assert_eq!(tree(&from), tree(&to));
}

#[test]
fn full_tape_pauses_and_an_abort_is_heard() {
    let s = Scratch::new();
    let (from, tape) = (s.path("from"), s.path("tape"));
    fs::write(&from, noise(6, 500_000)).unwrap();
    let host = Host::start(&tape, &["--new-cartridge", "100K", "--stream", from.to_str().unwrap()]);
    let mut c = host.login();
    c.tape_open(TO_WRITE).unwrap();
    c.join(0, 1_024, 1_024_000).unwrap();
    c.start_backup().unwrap();
    assert_eq!(c.run(0, |_| ()).unwrap(), ended(0, Why::Paused(Mover::END_OF_MEDIUM)));
    c.good(DATA_ABORT, b"").unwrap();
    assert_eq!(
        (c.notice().unwrap().header.message, c.notice().unwrap().header.message),
        (NOTIFY_DATA_HALTED, NOTIFY_MOVER_HALTED)
    );
    c.stop().unwrap();
    assert_eq!(sound(&fs::read(&tape).unwrap()), Ok((100, 102_400)));
}

#[test]
fn abort_is_heard_between_two_steps() {
    let s = Scratch::new();
    let (from, tape) = (s.path("from"), s.path("tape"));
    fs::write(&from, noise(8, 40 << 20)).unwrap();
    let host = Host::start(&tape, &["--new-cartridge", "64M", "--stream", from.to_str().unwrap()]);
    let mut c = host.login();
    c.tape_open(TO_WRITE).unwrap();
    c.join(0, 32_768, 32_768 * 4_000).unwrap();
    // Start and abort in one packet: the abort is heard before the stream has ended.
    let (start, abort) = (c.sequence + 1, c.sequence + 2);
    let both =
        [request(start, DATA_START_BACKUP, &[text("dump"), words(&[0])].concat()), request(abort, DATA_ABORT, b"")]
            .concat();
    c.socket.write_all(&both).unwrap();
    c.sequence = start;
    assert_eq!(word(&c.reply(DATA_START_BACKUP).unwrap().body, 0), 0);
    c.sequence = abort;
    assert_eq!(word(&c.reply(DATA_ABORT).unwrap().body, 0), 0);
    let m = c.notice().unwrap();
    assert_eq!(
        (m.header.message, word(&m.body, 0), c.notice().unwrap().header.message),
        (NOTIFY_DATA_HALTED, 2, NOTIFY_MOVER_HALTED)
    );
    let moved = quad(&c.good(MOVER_GET_STATE, b"").unwrap(), 28);
    assert!(moved < 40 << 20);
    assert_eq!(sound(&fs::read(&tape).unwrap()), Ok((moved / 32_768, moved)));
}

/// Whenever the client asks how far a backup is, the file is as far.
#[test]
fn bytes_that_are_told_as_moved_are_in_the_file() {
    use std::os::unix::fs::FileExt;
    let s = Scratch::new();
    let (from, tape) = (s.path("from"), s.path("tape"));
    fs::write(&from, noise(8, 60 << 20)).unwrap();
    let host = Host::start(&tape, &["--new-cartridge", "64M", "--stream", from.to_str().unwrap()]);
    let mut c = host.login();
    c.begin(Mover::TO_TAPE, 32_768, 1 << 30).unwrap();
    let file = fs::File::open(&tape).unwrap();
    let mut asked = 0;
    while c.notices.is_empty() {
        let moved = c.moved().unwrap();
        let mut head = [0; 16];
        file.read_exact_at(&mut head, 0).unwrap();
        assert!(word(&head, 12) as u64 >= moved, "{moved} bytes are told, and {} stored", word(&head, 12));
        asked += (moved > 0) as u32;
        std::thread::sleep(std::time::Duration::from_millis(2));
    }
    assert_eq!(c.run(0, |_| ()).unwrap().why, DONE);
    assert!(asked > 1, "{asked}");
}

#[test]
fn second_backup_behind_a_mark() {
    let s = Scratch::new();
    let (from, to, tape) = (s.folder("from"), s.folder("to"), s.path("tape"));
    sample(&from);
    let options = ["--new-cartridge", "4M", "--stream", from.to_str().unwrap(), "--restore-to", to.to_str().unwrap()];
    let host = Host::start(&tape, &options);
    let mut c = host.login();
    c.tape_open(TO_WRITE).unwrap();
    for round in 0..2 {
        c.join(0, 4_096, 409_600).unwrap();
        c.start_backup().unwrap();
        assert_eq!(c.run(409_600, |_| ()).unwrap().why, DONE);
        c.stop().unwrap();
        c.good(TAPE_MTIO, &words(&[5, 1])).unwrap();
        fs::write(from.join("a"), format!("round {round}")).unwrap();
    }
    // To the start, and forward over one mark: the second.
    c.good(TAPE_MTIO, &words(&[4, 1])).unwrap();
    c.good(TAPE_MTIO, &words(&[0, 1])).unwrap();
    c.join(1, 4_096, 81_920).unwrap();
    c.start_recover().unwrap();
    assert_eq!(c.run(81_920, |_| ()).unwrap().why, DONE);
    assert_eq!(fs::read(to.join("a")).unwrap(), b"round 0");
    fs::write(from.join("a"), "round 0").unwrap();
    assert_eq!(tree(&from), tree(&to));
}

/// Clients write marks between the windows of a backup, and go on behind them in a recover.
#[test]
fn recover_goes_on_behind_a_mark() {
    let s = Scratch::new();
    let (from, to, tape) = (s.path("from"), s.path("to"), s.path("tape"));
    fs::write(&from, noise(5, 5_000)).unwrap();
    fs::write(&to, b"stood there").unwrap();
    let options = ["--new-cartridge", "1M", "--stream", from.to_str().unwrap(), "--restore-to", to.to_str().unwrap()];
    let host = Host::start(&tape, &options);
    let mut c = host.login();
    c.begin(Mover::TO_TAPE, 1_024, 2_048).unwrap();
    let mut windows = 1;
    while c.notice().unwrap().header.message == NOTIFY_MOVER_PAUSED {
        c.good(TAPE_MTIO, &words(&[codes::WRITE_MARKS, 2])).unwrap();
        let moved = c.moved().unwrap();
        c.window(moved, 2_048).unwrap();
        c.good(MOVER_CONTINUE, b"").unwrap();
        windows += 1;
    }
    c.finish().unwrap();
    assert!(windows > 3, "{windows}");
    for goes_on in [false, true] {
        c.begin(Mover::FROM_TAPE, 1_024, 1_024_000).unwrap();
        let mut marks = 0;
        while c.run(0, |_| ()).unwrap().why == Why::Paused(Mover::END_OF_FILE) {
            // Nothing is told as whole here, and nothing has its name.
            assert_eq!(fs::read(&to).unwrap(), b"stood there");
            marks += 1;
            if !goes_on {
                break;
            }
            let moved = c.moved().unwrap();
            c.window(moved, 1_024_000).unwrap();
            c.good(MOVER_CONTINUE, b"").unwrap();
        }
        assert_eq!(marks, if goes_on { 2 * (windows - 1) } else { 1 });
        c.finish().unwrap();
    }
    assert_eq!(fs::read(&to).unwrap(), noise(5, 5_000));
}

#[test]
fn nothing_to_read_or_write_ends_the_method() {
    let s = Scratch::new();
    let host = Host::start(&s.path("tape"), &["--new-cartridge", "100K"]);
    let mut c = host.login();
    assert_eq!(c.backup(1_024, 10_240).unwrap(), ended(0, Why::Halted(Data::INTERNAL_ERROR)));
    assert_eq!(c.recover(1_024, 10_240).unwrap(), ended(0, Why::Halted(Data::INTERNAL_ERROR)));
}

#[test]
fn archive_does_not_lead_out_of_the_folder() {
    let s = Scratch::new();
    let (to, tape) = (s.folder("to"), s.path("tape"));
    let host = Host::start(&tape, &["--new-cartridge", "1M", "--restore-to", to.to_str().unwrap()]);
    // Archives as a stranger could make them: a path with `..`, a rooted one, and a file behind a link.
    let outside = s.path("outside");
    let rooted = format!("{}/file", outside.display());
    let archives = [
        vec![member("../outside", b'0', "", b"out")],
        vec![member("a/../../outside", b'0', "", b"out")],
        vec![member(&rooted, b'0', "", b"out")],
        vec![member("link", b'2', "..", b""), member("link/outside", b'0', "", b"out")],
        vec![member("link", b'2', "../outside", b""), member("link", b'0', "", b"in")],
    ];
    std::os::unix::fs::symlink("..", to.join("there")).unwrap();
    let through = vec![member("there/outside", b'0', "", b"out")];
    for (i, members) in archives.iter().chain([&through]).enumerate() {
        let mut c = host.login();
        put_on_tape(&mut c, &old_archive(members), 512);
        let why = c.recover(512, 51_200).unwrap().why;
        // Links of the archive itself get their names at the end: until then there is no way through them. The last but
        // one replaces the link by a file, which is in the folder.
        match i {
            3 => assert!(why == DONE || why == FAILED),
            4 => assert_eq!(why, DONE),
            _ => assert_eq!(why, FAILED, "archive {i}"),
        }
        assert!(!outside.exists());
    }
    assert_eq!(fs::read(to.join("link")).unwrap(), b"in");
}
