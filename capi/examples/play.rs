//! Plays a role over TCP, in the frames of `anb play`, so either may be on the other side:
//!     play <rolefile> <values> listen|dial <port>
//! Built by `rustc -O play.rs -L <prefix>/lib -l anb`.
use std::io::{Error, ErrorKind, Read, Write};
use std::net::{TcpListener, TcpStream};
use std::{env, fs, process, ptr, thread, time::Duration};

/// A session as anb.h has it.
#[repr(C)]
struct Raw {
    live: bool,
    state: *mut u8,
}

unsafe extern "C" {
    fn anb_open(s: *mut Raw, role: *const u8, role_len: usize, values: *const u8, values_len: usize, seed: *const u8, seed_len: usize) -> i32;
    fn anb_next(s: *mut Raw, out: *mut u8, out_len: usize, written: *mut usize, event: *mut u32, instruction: *mut u32) -> i32;
    fn anb_arrive(s: *mut Raw, bytes: *const u8, len: usize) -> i32;
    fn anb_close(s: *mut Raw);
}

/// What a role does next.
enum Turn {
    Message(Vec<u8>),
    Waiting,
    Done,
}

/// A role under way, which is closed where it goes out of scope.
struct Session(Raw);

impl Session {
    fn open(role: &[u8], values: &[u8], seed: &[u8; 32]) -> Result<Session, i32> {
        let mut s = Session(Raw { live: false, state: ptr::null_mut() });
        match unsafe { anb_open(&mut s.0, role.as_ptr(), role.len(), values.as_ptr(), values.len(), seed.as_ptr(), 32) } {
            0 => Ok(s),
            status => Err(status),
        }
    }

    fn next(&mut self) -> Result<Turn, i32> {
        let (mut out, mut len, mut event, mut at) = (vec![0; 4096], 0, 0, 0);
        loop {
            match unsafe { anb_next(&mut self.0, out.as_mut_ptr(), out.len(), &mut len, &mut event, &mut at) } {
                0 => return Ok(Turn::Done),
                11 => return Ok(Turn::Waiting),
                100 => {
                    out.truncate(len);
                    return Ok(Turn::Message(out));
                }
                101 => out.resize(len, 0),
                10 => {
                    eprintln!("stopped at event {event}, instruction {at}");
                    return Err(10);
                }
                status => return Err(status),
            }
        }
    }

    fn arrive(&mut self, bytes: &[u8]) -> Result<(), i32> {
        match unsafe { anb_arrive(&mut self.0, bytes.as_ptr(), bytes.len()) } {
            0 => Ok(()),
            status => Err(status),
        }
    }
}

impl Drop for Session {
    fn drop(&mut self) {
        unsafe { anb_close(&mut self.0) }
    }
}

fn connection(way: &str, port: u16) -> Result<TcpStream, Error> {
    if way == "listen" {
        return Ok(TcpListener::bind(("127.0.0.1", port))?.accept()?.0);
    }
    for _ in 0..50 {
        match TcpStream::connect(("127.0.0.1", port)) {
            Err(e) if e.kind() == ErrorKind::ConnectionRefused => thread::sleep(Duration::from_millis(100)),
            other => return other,
        }
    }
    Err(ErrorKind::ConnectionRefused.into())
}

fn play(words: &[String]) -> Result<i32, Error> {
    let (role, values) = (fs::read(&words[1])?, fs::read(&words[2])?);
    let mut seed = [0; 32];
    fs::File::open("/dev/urandom")?.read_exact(&mut seed)?;
    let mut session = match Session::open(&role, &values, &seed) {
        Ok(session) => session,
        Err(status) => return Ok(status),
    };
    let mut wire = connection(&words[3], words[4].parse().map_err(Error::other)?)?;
    loop {
        match session.next() {
            Ok(Turn::Done) => return Ok(0),
            Ok(Turn::Message(bytes)) => {
                wire.write_all(&(bytes.len() as u32).to_be_bytes())?;
                wire.write_all(&bytes)?;
            }
            Ok(Turn::Waiting) => {
                let mut size = [0; 4];
                wire.read_exact(&mut size)?;
                let mut bytes = vec![0; (u32::from_be_bytes(size) as usize).min(262_145)];
                wire.read_exact(&mut bytes)?;
                if let Err(status) = session.arrive(&bytes) {
                    return Ok(status);
                }
            }
            Err(status) => return Ok(status),
        }
    }
}

fn main() {
    let words: Vec<String> = env::args().collect();
    if words.len() != 5 {
        eprintln!("play <rolefile> <values> listen|dial <port>");
        process::exit(1);
    }
    process::exit(play(&words).unwrap_or_else(|e| {
        eprintln!("{e}");
        14
    }))
}
