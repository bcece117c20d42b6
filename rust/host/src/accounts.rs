//! Who may log in: the accounts of a file and of the command line, and the list of them that the core is lent. No line
//! for a person shows a password, and none about a file that is wrong shows any text of it: what stands there may be one.
use crate::sys;
use crate::variables::quoted;
use proved::codes;
use std::fs::OpenOptions;
use std::io::{ErrorKind, Read};
use std::os::unix::fs::{MetadataExt, OpenOptionsExt};
use std::path::Path;
use wire::{text, words};

/// A file of accounts has no more bytes.
const LONGEST_FILE: usize = 64 << 10;
const MOST: usize = codes::MOST_ACCOUNTS as usize;

/// What an account is marked with. Logins by text are withdrawn: such an account is lent to the core, which lets nobody in by
/// it.
#[derive(Clone, Copy, Debug, PartialEq)]
pub enum Kind {
    Text,
    Md5,
}

impl Kind {
    /// The auth type of NDMP.
    fn number(self) -> u32 {
        match self {
            Kind::Text => codes::TEXT_AUTH,
            Kind::Md5 => codes::MD5_AUTH,
        }
    }
}

pub struct Account {
    pub kind: Kind,
    pub id: Vec<u8>,
    pub password: Vec<u8>,
    /// The line of the file, from 1.
    pub line: Option<usize>,
}

/// What is to be done with a line of kind text.
const MEND: &str = "write md5 in place of text, with a password of at most 32 bytes";

/// The list for the core: a count, and of each account kind, id and password, in XDR.
pub fn lent(accounts: &[Account]) -> Vec<u8> {
    let each = |a: &Account| [words(&[a.kind.number()]), text(&a.id), text(&a.password)].concat();
    [words(&[accounts.len() as u32]), accounts.iter().flat_map(each).collect()].concat()
}

/// The account of the command line, and those of a file.
pub fn all(one: Option<Account>, file: Option<&Path>) -> Result<Vec<Account>, String> {
    let mut all: Vec<Account> = one.into_iter().collect();
    if let Some(path) = file {
        all.extend(read(path, MOST - all.len()).map_err(|why| format!("--accounts {why}"))?);
    }
    Ok(all)
}

/// The accounts of a file, which has at least one and at most so many.
fn read(path: &Path, most: usize) -> Result<Vec<Account>, String> {
    let told = |why| format!("{}: {why}", path.display());
    bytes_of(path).and_then(|bytes| parse(&bytes, most)).map_err(told)
}

/// A line of the core's for each account of a file: its number from 0, and `md5` or `withdrawn`.
pub fn listing(path: &Path) -> Result<Vec<u8>, String> {
    let mut lines = vec![0; proved::LEAST_LISTING];
    let listed = proved::accounts(&lent(&read(path, MOST)?), &mut lines);
    if listed.code != 0 {
        return Err(format!("{}: not listed, for the core's code is {}", path.display(), listed.code));
    }
    lines.truncate(listed.len);
    Ok(lines)
}

/// The first account of a file, which is to log in.
pub fn first(path: &Path) -> Result<Account, String> {
    let account = all(None, Some(path))?.swap_remove(0);
    match (account.kind, account.line) {
        (Kind::Text, Some(line)) => {
            let why = "its first account is one of text, and such a login is withdrawn";
            Err(format!("--accounts {}: line {line}: {why}; {MEND}, or put an md5 line first", path.display()))
        }
        _ => Ok(account),
    }
}

/// What is to be said at the start: of each account that can no longer log in, and where none is left that can.
pub fn withdrawn(accounts: &[Account], file: &Path) -> Vec<String> {
    let file = file.display();
    let texts = accounts.iter().filter(|a| a.kind == Kind::Text);
    let told = |a: &Account| {
        let (id, line) = (quoted(&a.id), a.line.unwrap_or(0));
        format!("account {id} by text is withdrawn and can no longer log in; in line {line} of {file} {MEND}")
    };
    let mut all: Vec<String> = texts.map(told).collect();
    if all.len() == accounts.len() {
        all.push(format!("nobody can log in: all accounts of {file} are withdrawn"));
    }
    all
}

/// The bytes of a file that its owner alone may read. It is judged by the handle, and not by a name that may come to mean
/// another file.
fn bytes_of(path: &Path) -> Result<Vec<u8>, String> {
    let flags = sys::NO_WAIT | sys::NO_TERMINAL;
    let opened = OpenOptions::new().read(true).custom_flags(flags).open(path);
    let file = opened.map_err(|e| match e.kind() {
        ErrorKind::NotFound => "no such file".into(),
        ErrorKind::PermissionDenied => "may not be read; it is to belong to the user who runs this".into(),
        _ => e.to_string(),
    })?;
    let meta = file.metadata().map_err(|e| e.to_string())?;
    if !meta.is_file() {
        return Err("not a regular file".into());
    }
    let (owner, user) = (meta.uid(), sys::user());
    if owner != user && owner != 0 {
        return Err(format!("belongs to user {owner}; it is to belong to user {user}, who runs this, or to root"));
    }
    if meta.mode() & 0o077 != 0 {
        let (mode, name) = (meta.mode() & 0o7777, path.display());
        return Err(format!("others than its owner have rights to it (mode {mode:03o}); chmod 600 {name}"));
    }
    let mut bytes = Vec::new();
    file.take(LONGEST_FILE as u64 + 1).read_to_end(&mut bytes).map_err(|e| e.to_string())?;
    if bytes.len() > LONGEST_FILE {
        return Err(format!("longer than {LONGEST_FILE} bytes"));
    }
    Ok(bytes)
}

/// One account a line; those that are empty or begin with # are passed over.
fn parse(bytes: &[u8], most: usize) -> Result<Vec<Account>, String> {
    let mut all = Vec::new();
    for (i, line) in bytes.split(|b| *b == b'\n').enumerate() {
        let line = line.strip_suffix(b"\r").unwrap_or(line);
        let parts: Vec<&[u8]> = line.split(|b| matches!(b, b' ' | b'\t')).filter(|p| !p.is_empty()).collect();
        if parts.first().is_none_or(|p| p.starts_with(b"#")) {
            continue;
        }
        let told = |why| format!("line {}: {why}", i + 1);
        if all.len() == most {
            return Err(told(format!("one account too many; at most {MOST}, and that of --account is one of them")));
        }
        let account = account(&parts).map_err(told)?;
        all.push(Account { line: Some(i + 1), ..account });
    }
    if all.is_empty() { Err("has no account; a line is md5 ID PASSWORD".into()) } else { Ok(all) }
}

/// The account of a line.
fn account(parts: &[&[u8]]) -> Result<Account, String> {
    let kind = match parts[0].to_ascii_lowercase().as_slice() {
        b"text" => Kind::Text,
        b"md5" => Kind::Md5,
        _ => return Err("expected md5 as its first word".into()),
    };
    let [_, id, password] = parts else {
        return Err(format!("expected three words, md5 ID PASSWORD, and found {}", parts.len()));
    };
    if kind == Kind::Md5 {
        fits(password)?;
    }
    Ok(Account { kind, id: id.to_vec(), password: password.to_vec(), line: None })
}

/// Whether a password can log in by MD5.
pub fn fits(password: &[u8]) -> Result<(), String> {
    match (password.len(), codes::LONGEST_PASSWORD) {
        (n, most) if n > most => Err(format!("an MD5 password of {n} bytes lets nobody in; at most {most}")),
        _ => Ok(()),
    }
}

#[cfg(test)]
mod tests {
    use super::*;

    fn told(bytes: &[u8], most: usize) -> Result<Vec<(Kind, String, String)>, String> {
        let text = |b: Vec<u8>| String::from_utf8_lossy(&b).into_owned();
        parse(bytes, most).map(|all| all.into_iter().map(|a| (a.kind, text(a.id), text(a.password))).collect())
    }

    fn found(kind: Kind, id: &str, password: &str) -> (Kind, String, String) {
        (kind, id.into(), password.into())
    }

    #[test]
    fn lines_are_read() {
        let file = b"# who may log in\n\n  # and how\n \t\ntext vault noon\n\tMD5\t\tvault  #no:on \r\nmd5 \xff a\nText vault noon";
        let all = [
            found(Kind::Text, "vault", "noon"),
            found(Kind::Md5, "vault", "#no:on"),
            found(Kind::Md5, "\u{fffd}", "a"),
            found(Kind::Text, "vault", "noon"),
        ];
        assert_eq!(told(file, 8), Ok(all.to_vec()));
        let long = format!("md5 a {}\ntext a {}\n", "p".repeat(32), "p".repeat(33));
        assert_eq!(told(long.as_bytes(), 2).map(|all| all.len()), Ok(2));
    }

    /// By line, and with nothing of what stands in it.
    #[test]
    fn wrong_lines_are_told() {
        let long = format!("\nmd5 a {}", "p".repeat(33));
        for (file, why) in [
            ("", "has no account; a line is md5 ID PASSWORD"),
            ("# md5 a b\n\n", "has no account; a line is md5 ID PASSWORD"),
            ("secret:word", "line 1: expected md5 as its first word"),
            ("text a b\n#\nsha1 a secret", "line 3: expected md5 as its first word"),
            ("md5", "line 1: expected three words, md5 ID PASSWORD, and found 1"),
            ("\r\ntext secret\r\n", "line 2: expected three words, md5 ID PASSWORD, and found 2"),
            ("md5 a secret word", "line 1: expected three words, md5 ID PASSWORD, and found 4"),
            (&long, "line 2: an MD5 password of 33 bytes lets nobody in; at most 32"),
        ] {
            assert_eq!(told(file.as_bytes(), 8), Err(why.into()));
        }
        let nine = "md5 a b\n".repeat(9);
        assert_eq!(told(&nine.as_bytes()[8..], 8).map(|all| all.len()), Ok(8));
        for (file, most, line) in [(&nine[..], 8, 9), (&nine[8..], 7, 8)] {
            let why = "one account too many; at most 8, and that of --account is one of them";
            assert_eq!(told(file.as_bytes(), most), Err(format!("line {line}: {why}")));
        }
    }

    /// By hand: the count, and kind, id and password of each, as RFC 4506 has words and strings.
    #[test]
    fn list_for_the_core() {
        let account = |kind, id: &str, password: &str| {
            let (id, password) = (id.into(), password.into());
            Account { kind, id, password, line: None }
        };
        let all = [account(Kind::Md5, "a", "noon"), account(Kind::Text, "vault", "\u{fc}")];
        let bytes = b"\0\0\0\x02\
            \0\0\0\x02\0\0\0\x01a\0\0\0\0\0\0\x04noon\
            \0\0\0\x01\0\0\0\x05vault\0\0\0\0\0\0\x02\xc3\xbc\0\0";
        assert_eq!(lent(&all), bytes);
        assert_eq!(lent(&[]), [0; 4]);
    }

    /// By the line and in quotes, and without the password.
    #[test]
    fn withdrawn_accounts_are_told() {
        let told = |bytes: &[u8]| withdrawn(&parse(bytes, 8).unwrap(), Path::new("/f"));
        let long = format!("text {} secret\n", "i".repeat(300));
        let line = |id: &str, line: u32| {
            format!(
                "account {id} by text is withdrawn and can no longer log in; in line {line} of /f write md5 in place of text, with \
                 a password of at most 32 bytes"
            )
        };
        assert_eq!(told(b"md5 a secret\n"), Vec::<String>::new());
        assert_eq!(
            told(b"#\ntext a\"b secret\nmd5 a secret\ntext b secret\n"),
            [line("\"a\"\"b\"", 2), line("\"b\"", 4)]
        );
        let none = "nobody can log in: all accounts of /f are withdrawn";
        assert_eq!(told(long.as_bytes()), [line(&format!("\"{}\"..", "i".repeat(200)), 1), none.into()]);
    }
}
