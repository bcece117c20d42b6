//! What `--help` prints.

pub const PROGRAM: &str = "\
mossgoblin: a tape vault that speaks NDMP version 4 over TCP

  mossgoblin serve      put a cartridge on a port: backups go to it, recovers come from it
  mossgoblin new        make an empty cartridge, which is one file
  mossgoblin list       print what is on a cartridge
  mossgoblin check      say whether a cartridge is sound
  mossgoblin library    print what is in each slot of a folder of cartridges
  mossgoblin accounts   say of each account of a file whether it can log in
  mossgoblin rmt        serve a cartridge to tar, cpio or mt, by rmt on standard input and output
  mossgoblin try        make a backup and a recover, and compare

  mossgoblin COMMAND --help   what the command does, its options and examples
  mossgoblin --version        the version

Exit codes: 0 done, 1 not done (one line on standard error says why), 2 wrong command line.

Examples:
  mossgoblin try
  mossgoblin new tape 128M
  mossgoblin serve --listen 127.0.0.1:10000 --cartridge tape --account vault:noon --stream docs
";

pub const SERVE: &str = "\
mossgoblin serve: put a cartridge on a port, for any NDMP v4 client

  mossgoblin serve --listen ADDRESS:PORT --cartridge FILE | --library DIR [--cartridge FILE]
                   --accounts FILE | --account ID:PASSWORD
                   [--new-cartridge SIZE] [--stream DIR|FILE] [--restore-to DIR|FILE]
                   [--data-address ADDRESS[,ADDRESS..]] [--data-ports LOW-HIGH]
                   [--strict] [--sync each|marks] [--status [ADDRESS:]PORT]
                   [--login-within SECONDS] [--idle SECONDS] [--hold SECONDS]
                   [--send-within SECONDS] [--quiet]

  --listen ADDRESS:PORT   where clients connect, such as 127.0.0.1:10000; with port 0
                          the system chooses one. `listening on ADDRESS:PORT` is the
                          first line on standard output.
  --cartridge FILE        the tape: one file with the table of records and their bytes
  --library DIR           a changer with more tapes: each file of DIR, at most eight, is a
                          cartridge, in the slots 16 to 23 in the order of their names;
                          --cartridge may be left out then, and is in the drive where it is
                          given. Where they are is kept in DIR/.slots, so the next start
                          finds each cartridge in its place; files that are new then go to
                          empty slots. Folders and names that begin with a dot are none.
  --new-cartridge SIZE    make FILE first; it must not exist. SIZE is the room for data:
                          bytes, or with K, M, G behind the number; at most 128M.
                          The table has room for 4,096 records and marks.
  --accounts FILE         who may log in: a line each, `md5 ID PASSWORD`, at most eight.
                          Logins are by MD5: the password does not go over the network,
                          and has at most 32 bytes. An id or a password has no blanks.
                          Empty lines and those that begin with # are passed over. FILE
                          is yours or root's, and nobody else's to read: chmod 600 FILE.
                          It is read once, at the start. Lines `text ID PASSWORD` are read
                          too, and let nobody in: text login is withdrawn.
  --account ID:PASSWORD   one more account, neither empty, the password of at most 32 bytes;
                          it may hold colons, and both are seen by those who may list
                          processes
  --stream DIR|FILE       what a backup reads: a folder goes to tape as a tar archive,
                          a file as an archive of one member. Length and SHA-256 stand
                          at its end.
  --restore-to DIR|FILE   where a recover writes: an archive is unpacked into a folder
                          that is there; any other name is a file for the one file of
                          the archive, or for a folder's archive as it is. What stood
                          there stays until the stream was found whole.
  --data-address ADDRESS[,ADDRESS..]
                          where another vault or server connects for a copy by TCP:
                          IPv4 addresses of this machine, at most 16 (127.0.0.1, for
                          those on this machine). A port is open there only from a
                          listen by TCP until a peer has connected, or an abort. Nobody
                          logs in there: whoever connects first is the peer, and the log
                          names it.
  --data-ports LOW-HIGH   the ports that may be opened there, such as 10100-10131 for a
                          firewall; by default any that is free
  --strict                end a backup at the first file that cannot be read. Without it
                          such a file is left out, named in the log and counted in the
                          backup's last line.
  --sync each|marks       when tape writes are brought to the disk: each before it is
                          answered (the default), or as a drive with a buffer does, at
                          marks, rewind, close and end. With marks, a crash or a kill
                          loses the writes since the last of these, though they were
                          answered; a backup by the mover is not affected.
  --status [ADDRESS:]PORT a page for a browser with sessions, window, tape and log, and
                          the same as JSON at /status.json. Without ADDRESS only this
                          machine reaches it. Whoever reaches it reads it: it has no
                          login, and can change nothing.
  --login-within SECONDS  end a connection that has not logged in by then (30)
  --idle SECONDS          end a connection that sends nothing for so long (3600)
  --hold SECONDS          the same while it has the tape and nothing moves (600). By TCP,
                          a peer that is waited for meanwhile is given up, and the
                          client told
  --send-within SECONDS   end a connection that does not take an answer for so long (60).
                          A backup by TCP waits as long for a peer that has confirmed
                          all and does not close
  --quiet                 no progress and no refusals on standard error, only errors

The devices are `tape0` and `changer0`, the method is `dump`, addresses are LOCAL and TCP.
A backup, seen from the client: connect open (version 4), get auth attributes (type 2) for a
challenge, client auth by MD5 (text is refused with 9), tape open `tape0` for writing, mover
set record size (10,240 where it is left out), mover set window, mover listen (mode 0), data
connect, data start backup. At `mover paused` with reason 5 (end of window): set the next
window and continue; a window of length 2^64 - 1 has no end. At `data halted`: data get env,
which gives the variables of the start back, until data stop; mover stop, tape close.
A recover is the same with mode 1 and data start recover, from a rewound tape; the mover
reads are made by the vault.
A copy between two vaults has a session on each: mover listen by TCP where the tape is gives
addresses, data connect to them where the files are, data start backup; or data listen and
mover connect. In such a recover the client sends the mover reads.

Names of a recover are those in the archive, with or without FILESYSTEM before them: only
these are restored. Other wishes are not followed, and the log says so, such as another
FILESYSTEM than the path of --stream.

The changer has the transport 0, the drive 1 and the slots 16 to 23: execute CDB with READ
ELEMENT STATUS (B8h) tells what is in them, MOVE MEDIUM (A5h) changes that, and is on the disk
before it is answered. At `mover paused` with reason 1 (end of tape) a backup or a recover goes
on with another cartridge: tape close, MOVE MEDIUM of the one from drive to slot and of the
next from slot to drive, tape open, set window at the bytes moved, continue.

One session at a time has the tape: tape open in a second one is answered with 15. One at a
time has the changer: scsi open in a second one is answered with 3. With an empty drive tape
open is answered with 10.
The vault runs until SIGTERM or SIGINT, which end it in order; what a client was told is on
the disk.

Examples:
  (umask 077; echo md5 vault noon > accounts)
  mossgoblin serve --listen 127.0.0.1:10000 --cartridge tape --new-cartridge 128M \\
                   --accounts accounts --stream docs --restore-to /tmp/restored
  mossgoblin serve --listen=127.0.0.1:10000 --cartridge=tape --account=vault:noon --status=8080
  mossgoblin serve --listen 10.0.0.2:10000 --cartridge tape --accounts accounts \\
                   --data-address 10.0.0.2 --data-ports 10100-10131
  mkdir tapes; for n in 1 2 3; do mossgoblin new tapes/tape-$n 128M; done
  mossgoblin serve --listen 127.0.0.1:10000 --library tapes --accounts accounts --stream docs
";

pub const NEW: &str = "\
mossgoblin new: make an empty cartridge, which is one file

  mossgoblin new FILE SIZE

  FILE   its name; a file that is there already is not touched
  SIZE   the room for data: bytes, or with K, M, G behind the number; at most 128M.
         The table has room for 4,096 records and marks: with records of 32,768 bytes
         they fill 128M, with records of 1,024 bytes 4M.

Examples:
  mossgoblin new tape 128M
  mossgoblin new /var/lib/mossgoblin/tape 64M
";

pub const LIST: &str = "\
mossgoblin list: print what is on a cartridge

  mossgoblin list FILE

The first line tells entries and bytes, of how many there is room for. Then comes a line
for each record and each mark: its number from 0, its length, and where it begins. It is
told by the proved core, at any size. A cartridge that a vault has open is not read.

Examples:
  mossgoblin list tape
  mossgoblin list tape | tail -n 3
";

pub const CHECK: &str = "\
mossgoblin check: say whether a cartridge is sound

  mossgoblin check FILE [FILE..]

Sound is what the vault takes: the table fits the file, and its records lie one behind the
other. One line a cartridge. The exit code is 0 if all are sound, and 1 otherwise. Nothing
is written. A cartridge that a vault has open is not read.

Examples:
  mossgoblin check tape
  mossgoblin check /var/lib/mossgoblin/* && echo all sound
";

pub const LIBRARY: &str = "\
mossgoblin library: print what is in each slot of a folder of cartridges

  mossgoblin library DIR [--cartridge FILE]

DIR is one of `serve --library`. A line for the drive and one for each slot, 16 to 23: the name
of the cartridge there, its records, marks, bytes and entries, or `empty`. The places are those
of DIR/.slots, as the next start will find them. Nothing is changed. A cartridge that a vault
has open is named and not read, and then the exit code is 1.

  --cartridge FILE   the one that the vault has beside the folder

Examples:
  mossgoblin library tapes
  mossgoblin library /var/lib/mossgoblin/library --cartridge /var/lib/mossgoblin/tape
";

pub const ACCOUNTS: &str = "\
mossgoblin accounts: say of each account of a file whether it can log in

  mossgoblin accounts FILE

FILE is one of --accounts, and judged as the vault does at its start. A line for each account,
as the proved core tells it: its number from 0, in the order of the file, and

  md5         logs in by MD5
  withdrawn   a line `text ID PASSWORD`, by which nobody gets in any more: write md5 in place
              of text, with a password of at most 32 bytes

Neither ids nor passwords are told.

Examples:
  mossgoblin accounts /etc/mossgoblin/accounts
  mossgoblin accounts accounts | grep withdrawn
";

pub const RMT: &str = "\
mossgoblin rmt: serve a cartridge to tar, cpio or mt, by rmt on standard input and output

  mossgoblin rmt --cartridge FILE [--new-cartridge SIZE] [--idle SECONDS]
                 [--command-within SECONDS] [--send-within SECONDS] [--verbose]

rmt is the old remote tape protocol: a client starts this program on the machine of the tape,
by rsh or ssh, and writes commands to its standard input: open, read, write, space, close. The
replies are on standard output, and nothing else is. What a reply tells is on the disk first.

There is no login in rmt: whoever may start this program has the tape. Over ssh, a key with a
forced command (below) starts this program and no other.

  --cartridge FILE          the tape: one file, as `mossgoblin new` makes it. It is locked as
                            long as this runs: neither a vault nor a second rmt has it
                            meanwhile. One that is in use is waited for, two seconds.
  --new-cartridge SIZE      make FILE first; it must not exist. SIZE is the room for data:
                            bytes, or with K, M, G behind the number; at most 128M
  --idle SECONDS            end when no command begins for so long (600)
  --command-within SECONDS  end when a command that began is not whole by then (60)
  --send-within SECONDS     end when a reply is not taken for so long (60)
  --verbose                 a line on standard error for each command and its reply. Without
                            it there are only errors: with ssh they are seen at the client

The tape's name is `tape0`, whatever FILE is. Each open begins at the tape's start. Records
have at most 32,768 bytes (tar -b 64), and a cartridge has 4,096 of them and of marks.
Replies are A with a number, or E with 5 (I/O error: also at a mark and at the tape's end),
6 (no such device) or 22 (invalid argument). GNU's tar, cpio and mt say some things in words of
their own, which are understood; README.md of rust/host has the list.
The exit code is 0 when the input ends between two commands, and 1 when it ends within one, of
which nothing is done, or a limit is reached.

Examples:
  printf 'Otape0\\n1\\nW6\\nhello\\nI0\\n1\\nC\\n' > commands
  mossgoblin rmt --cartridge tape --new-cartridge 128M < commands
  # ~/.ssh/authorized_keys on the machine of the tape, one line:
  restrict,command=\"mossgoblin rmt --cartridge /var/lib/mossgoblin/tape\" ssh-ed25519 AAAA.. ferry
  # and where the files are:
  tar --rsh-command=/usr/bin/ssh -cf vault.example:tape0 docs
  tar --rsh-command=/usr/bin/ssh -tvf vault.example:tape0
  mt-gnu --rsh-command=/usr/bin/ssh -f vault.example:tape0 fsf 1
  # with a key that may start anything:
  tar --rsh-command=/usr/bin/ssh --rmt-command='mossgoblin rmt --cartridge tape' \\
      -xf vault.example:tape0
";

pub const TRY: &str = "\
mossgoblin try: make a backup and a recover, and compare

  mossgoblin try
  mossgoblin try ADDRESS:PORT --accounts FILE | --account ID:PASSWORD
                 [--overwrite] [--stream DIR|FILE --restore-to DIR|FILE]

Without an address a vault is started on loopback, with a fresh cartridge and some files in
a temporary folder; all of it is gone at the end. With an address the vault there is tried.
A line tells each step, with its bytes and rate:

  tape       records are written by tape write requests, read back and compared
  backup     what the vault's --stream names goes to tape, in windows of 32 records
  recover    it comes back to what the vault's --restore-to names
  compared   both, byte for byte, where this machine has them

  --accounts FILE            as the vault was started with: the first account of FILE logs
                             in, by MD5
  --account ID:PASSWORD      the same of one account
  --overwrite                write over the records on the vault's tape; without it a tape
                             that is not empty is left as it is
  --stream, --restore-to     the same that the vault was started with, if it runs on this
                             machine: they are compared at the end

Examples:
  mossgoblin try
  mossgoblin try 127.0.0.1:10000 --accounts accounts --overwrite
";
