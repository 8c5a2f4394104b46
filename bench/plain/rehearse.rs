//! What `acfg rehearse SCRIPT` answers, in plain Rust: a yardstick for its speed. Names are tested on the line's bytes and
//! copied once, a reply is written once into one buffer that is kept, and each line is said by one write.
//!
//! Of declarations it reads the form alone that `bench/rehearse.sh` writes, and their digest is its second word.

use std::collections::BTreeMap;
use std::fs::File;
use std::io::Write;
use std::mem::ManuallyDrop;
use std::os::fd::FromRawFd;
use std::{env, fs, io};

#[derive(Default)]
struct Flag {
    release: bool,
    server: Option<bool>,
    local: Option<bool>,
}
type Key = (String, String);
#[derive(Default)]
struct Container {
    flags: BTreeMap<Key, Flag>,
    boot: Option<BTreeMap<Key, bool>>,
}

enum Request {
    Update {
        container: String,
        dir: String,
    },
    Server {
        container: String,
        key: Key,
        value: bool,
    },
    Local {
        container: String,
        key: Key,
        value: bool,
    },
    Unset {
        container: String,
        key: Key,
    },
    Boot,
    Get {
        container: String,
        key: Key,
    },
}
enum Reply {
    Fine,
    Updated(usize),
    Value(Option<bool>),
    Refused(u8, &'static str),
}

fn are_names(text: &[u8]) -> bool {
    let mut previous = b'.';
    for &byte in text {
        let follows = match byte {
            b'a'..=b'z' => true,
            b'0'..=b'9' | b'.' => previous != b'.',
            b'_' => previous != b'.' && previous != b'_',
            _ => false,
        };
        if !follows {
            return false;
        }
        previous = byte;
    }
    previous != b'.'
}
fn owned(word: &[u8]) -> Option<String> {
    String::from_utf8(word.to_vec()).ok()
}
fn container(word: &[u8]) -> Option<String> {
    if word.len() <= 100 && are_names(word) {
        owned(word)
    } else {
        None
    }
}
fn key(package: &[u8], flag: &[u8]) -> Option<Key> {
    let is_package = package.len() <= 255 && are_names(package) && package.contains(&b'.');
    let is_flag = flag.len() <= 255 && are_names(flag) && !flag.contains(&b'.');
    if is_package && is_flag {
        Some((owned(package)?, owned(flag)?))
    } else {
        None
    }
}
fn value(word: &[u8]) -> Option<bool> {
    match word {
        b"true" => Some(true),
        b"false" => Some(false),
        _ => None,
    }
}

fn request(text: &[u8]) -> Option<Request> {
    let mut words: [&[u8]; 6] = [b""; 6];
    let mut count = 0;
    for word in text.split(|byte| *byte == b' ') {
        if count == 6 {
            return None;
        }
        words[count] = word;
        count += 1;
    }
    match words[..count] {
        [b"update", c, dir]
            if !dir.is_empty() && dir.len() <= 1024 && dir.iter().all(|b| *b >= 0x20) =>
        {
            Some(Request::Update {
                container: container(c)?,
                dir: owned(dir)?,
            })
        }
        [b"server", c, p, f, v] => Some(Request::Server {
            value: value(v)?,
            container: container(c)?,
            key: key(p, f)?,
        }),
        [b"local", c, p, f, v] => Some(Request::Local {
            value: value(v)?,
            container: container(c)?,
            key: key(p, f)?,
        }),
        [b"unset", c, p, f] => Some(Request::Unset {
            container: container(c)?,
            key: key(p, f)?,
        }),
        [b"boot"] => Some(Request::Boot),
        [b"get", c, p, f] => Some(Request::Get {
            container: container(c)?,
            key: key(p, f)?,
        }),
        _ => None,
    }
}
fn flags_in(file: &str) -> BTreeMap<Key, Flag> {
    let mut flags = BTreeMap::new();
    let mut package = "";
    for line in file.lines() {
        if let Some(rest) = line.strip_prefix("package: \"") {
            package = rest.trim_end_matches('"');
        }
        if let Some(rest) = line.strip_prefix("    name: \"") {
            flags.insert(
                (package.to_string(), rest.trim_end_matches('"').to_string()),
                Flag::default(),
            );
        }
    }
    flags
}
const UNKNOWN_CONTAINER: Reply = Reply::Refused(2, "unknown-container");
const UNKNOWN_FLAG: Reply = Reply::Refused(3, "unknown-flag");
fn step(machine: &mut BTreeMap<String, Container>, request: Request) -> Reply {
    match request {
        Request::Update { container, dir } => {
            let Ok(file) = fs::read_to_string(format!("{dir}/flags.aconfig")) else {
                return Reply::Refused(8, "missing-file");
            };
            let flags = flags_in(&file);
            let count = flags.len();
            machine.entry(container).or_default().flags = flags;
            Reply::Updated(count)
        }
        Request::Server {
            container,
            key,
            value,
        } => match machine.get_mut(&container) {
            Some(container) => match container.flags.get_mut(&key) {
                Some(flag) => {
                    flag.server = Some(value);
                    Reply::Fine
                }
                None => UNKNOWN_FLAG,
            },
            None => UNKNOWN_CONTAINER,
        },
        Request::Local {
            container,
            key,
            value,
        } => match machine.get_mut(&container) {
            Some(container) => match container.flags.get_mut(&key) {
                Some(flag) => {
                    flag.local = Some(value);
                    Reply::Fine
                }
                None => UNKNOWN_FLAG,
            },
            None => UNKNOWN_CONTAINER,
        },
        Request::Unset { container, key } => match machine.get_mut(&container) {
            Some(container) => match container.flags.get_mut(&key) {
                Some(flag) => match flag.local.take() {
                    Some(_) => Reply::Fine,
                    None => Reply::Refused(7, "no-override"),
                },
                None => UNKNOWN_FLAG,
            },
            None => UNKNOWN_CONTAINER,
        },
        Request::Boot => {
            for container in machine.values_mut() {
                let picked = |(key, flag): (&Key, &Flag)| {
                    (
                        key.clone(),
                        flag.local.or(flag.server).unwrap_or(flag.release),
                    )
                };
                container.boot = Some(container.flags.iter().map(picked).collect());
            }
            Reply::Fine
        }
        Request::Get { container, key } => match machine.get(&container) {
            Some(container) => match &container.boot {
                Some(copy) => Reply::Value(copy.get(&key).copied()),
                None => Reply::Refused(5, "no-boot-copy"),
            },
            None => UNKNOWN_CONTAINER,
        },
    }
}
fn client_and_piece(line: &[u8]) -> Option<(u8, &[u8])> {
    let space = line.iter().position(|byte| *byte == b' ')?;
    let (word, piece) = (
        std::str::from_utf8(&line[..space]).ok()?,
        &line[space + 1..],
    );
    let client: u8 = word.parse().ok()?;
    let plain = !word.starts_with('+') && (word.len() == 1 || !word.starts_with('0'));
    (plain && !piece.ends_with(b"\\")).then_some((client, piece))
}
fn main() -> io::Result<()> {
    let words: Vec<String> = env::args().collect();
    let script = fs::read(&words[1])?;
    let mut machine = BTreeMap::new();
    let mut out = ManuallyDrop::new(unsafe { File::from_raw_fd(1) });
    let mut said = Vec::new();
    for (number, line) in script
        .strip_suffix(b"\n")
        .unwrap_or(&script)
        .split(|byte| *byte == b'\n')
        .enumerate()
    {
        said.clear();
        match client_and_piece(line) {
            None => writeln!(said, "? bad-line {}", number + 1)?,
            Some((client, piece)) => {
                let reply = match request(piece) {
                    _ if piece.len() > 4096 => Reply::Refused(12, "too-long"),
                    Some(request) => step(&mut machine, request),
                    None => Reply::Refused(1, "bad-request"),
                };
                match reply {
                    Reply::Fine => writeln!(said, "{client} ok")?,
                    Reply::Updated(count) => {
                        writeln!(said, "{client} updated {} {count}", words[2])?
                    }
                    Reply::Value(None) => writeln!(said, "{client} none")?,
                    Reply::Value(Some(value)) => writeln!(said, "{client} {value}")?,
                    Reply::Refused(number, name) => writeln!(said, "{client} err {number} {name}")?,
                }
            }
        }
        out.write_all(&said)?;
    }
    Ok(())
}
