//! The load of `bench/serve` and `bench/status`, which compile it:
//!
//!     load serve PROGRAM [SECONDS]     round trips and status queries over `PROGRAM serve` and over an echo
//!     load status PROGRAM [SECONDS]    status queries a second while other sessions work
//!     load echo                        the echo: a thread for each connection, which reads and writes
//!
//! Each session is a thread that sends a request, waits for its answer and compares it.

use std::io::{self, BufRead, BufReader, Read, Write};
use std::net::{TcpListener, TcpStream};
use std::process::{Child, Command, Stdio};
use std::sync::Barrier;
use std::sync::atomic::{AtomicBool, Ordering};
use std::thread;
use std::time::{Duration, Instant};

type Result<T> = std::result::Result<T, Box<dyn std::error::Error + Send + Sync>>;

const SESSIONS: u32 = 16;
const TRIALS: u32 = 3;
const TICKS_A_SECOND: u64 = 100;

// ---- messages

const DATA_END: u8 = 7;
const ASYNC_STATUS_QUERY: u8 = 21;
const ASYNC_STATUS_RESPONSE: u8 = 22;
const IDENTIFIER: u32 = 0xffff_ff00;

fn message(kind: u8, control: u8, parameter: u32, payload: &[u8]) -> Vec<u8> {
    let mut bytes = vec![b'H', b'S', kind, control];
    bytes.extend(parameter.to_be_bytes());
    bytes.extend((payload.len() as u64).to_be_bytes());
    bytes.extend(payload);
    bytes
}

/// A request, and the one answer that is right.
struct Turn {
    request: Vec<u8>,
    answer: Vec<u8>,
}

impl Turn {
    /// A program message, which tells that the last answer was read, and its answer.
    fn query(text: &str, answer: &str) -> Turn {
        Turn {
            request: message(DATA_END, 1, IDENTIFIER, format!("{text}\n").as_bytes()),
            answer: message(DATA_END, 0, IDENTIFIER, format!("{answer}\n").as_bytes()),
        }
    }

    fn identity() -> Turn {
        Turn::query("*IDN?", "OPENBENCH,SWM8,0,1.0")
    }

    fn status() -> Turn {
        Turn {
            request: message(ASYNC_STATUS_QUERY, 0, IDENTIFIER, b""),
            answer: message(ASYNC_STATUS_RESPONSE, 0, 0, b""),
        }
    }

    /// What the echo has for this one: zeros of the same number.
    fn echoed(&self) -> Turn {
        Turn { request: self.request.clone(), answer: vec![0; self.answer.len()] }
    }
}

// ---- connections

/// A connection on which turns are taken one after another.
struct Line {
    stream: TcpStream,
    turns: Vec<Turn>,
    next: usize,
    heard: Vec<u8>,
}

impl Line {
    fn new(stream: TcpStream, turns: Vec<Turn>) -> Line {
        Line { stream, turns, next: 0, heard: Vec::new() }
    }

    fn round_trip(&mut self) -> Result<()> {
        let turn = &self.turns[self.next];
        self.next = (self.next + 1) % self.turns.len();
        self.stream.write_all(&turn.request)?;
        self.heard.resize(turn.answer.len(), 0);
        self.stream.read_exact(&mut self.heard)?;
        if self.heard != turn.answer {
            return Err(format!("{:02x?} in place of {:02x?}", self.heard, turn.answer).into());
        }
        Ok(())
    }
}

fn connect(port: u16) -> Result<TcpStream> {
    let stream = TcpStream::connect(("127.0.0.1", port))?;
    stream.set_nodelay(true)?;
    stream.set_read_timeout(Some(Duration::from_secs(60)))?;
    Ok(stream)
}

/// Asks for something of which 16 bytes come back, and gives them.
fn greet(stream: &mut TcpStream, request: &[u8]) -> Result<[u8; 16]> {
    let mut answer = [0; 16];
    stream.write_all(request)?;
    stream.read_exact(&mut answer)?;
    Ok(answer)
}

/// A session of the program: its synchronous and its asynchronous connection.
fn open_session(port: u16) -> Result<(TcpStream, TcpStream)> {
    let mut first = connect(port)?;
    let welcome = greet(&mut first, &message(0, 0, 0x0100_5858, b"hislip0"))?;
    let number = u32::from(u16::from_be_bytes([welcome[6], welcome[7]]));
    let mut second = connect(port)?;
    let answer = greet(&mut second, &message(17, 0, number, b""))?;
    match (welcome[2], answer[2]) {
        (1, 18) => Ok((first, second)),
        kinds => Err(format!("a session is answered by messages of kinds {kinds:?}").into()),
    }
}

/// A connection to the echo, which is told the sizes of its requests and answers.
fn open_echo(port: u16, turn: &Turn) -> Result<Line> {
    let mut stream = connect(port)?;
    let sizes = [turn.request.len() as u32, turn.answer.len() as u32];
    stream.write_all(&sizes.map(u32::to_be_bytes).concat())?;
    Ok(Line::new(stream, vec![turn.echoed()]))
}

// ---- servers

/// A process that serves on a port, and is stopped at the end.
struct Server {
    child: Child,
    port: u16,
    _remarks: BufReader<std::process::ChildStderr>,
}

impl Server {
    /// Starts a process whose first line on standard error ends with the address that it listens on.
    fn start(program: &str, words: &[&str]) -> Result<Server> {
        let mut child = Command::new(program).args(words).stdin(Stdio::null()).stderr(Stdio::piped()).spawn()?;
        let mut remarks = BufReader::new(child.stderr.take().ok_or("no standard error")?);
        let mut line = String::new();
        remarks.read_line(&mut line)?;
        let port = line.trim().rsplit(':').next().and_then(|port| port.parse().ok());
        match port {
            Some(port) => Ok(Server { child, port, _remarks: remarks }),
            None => {
                child.kill()?;
                Err(format!("{program} says {line:?} in place of an address").into())
            }
        }
    }

    fn echo() -> Result<Server> {
        let own = std::env::current_exe()?;
        Server::start(own.to_str().ok_or("no name")?, &["echo"])
    }

    /// The program on a port that was free just before.
    fn program(program: &str) -> Result<Server> {
        let port = TcpListener::bind("127.0.0.1:0")?.local_addr()?.port();
        Server::start(program, &["serve", "--port", &port.to_string()])
    }

    /// Processor time in microseconds, from the 14th and 15th field of the process's stat.
    fn processor_time(&self) -> Result<u64> {
        let stat = std::fs::read_to_string(format!("/proc/{}/stat", self.child.id()))?;
        let fields = stat.rsplit(')').next().ok_or("no stat")?.split_whitespace().skip(11).take(2);
        let ticks: u64 = fields.map(|field| field.parse::<u64>().unwrap_or(0)).sum();
        Ok(ticks * 1_000_000 / TICKS_A_SECOND)
    }
}

impl Drop for Server {
    fn drop(&mut self) {
        let _ = self.child.kill();
        let _ = self.child.wait();
    }
}

fn echo_on(mut stream: TcpStream) -> io::Result<()> {
    let mut sizes = [[0; 4]; 2];
    stream.read_exact(sizes.as_flattened_mut())?;
    let [request, answer] = sizes.map(|size| u32::from_be_bytes(size) as usize);
    let (mut heard, said) = (vec![0; request], vec![0; answer]);
    loop {
        stream.read_exact(&mut heard)?;
        stream.write_all(&said)?;
    }
}

fn echo() -> Result<()> {
    let listener = TcpListener::bind("127.0.0.1:0")?;
    eprintln!("echo: listening on {}", listener.local_addr()?);
    for stream in listener.incoming() {
        let stream = stream?;
        stream.set_nodelay(true)?;
        thread::spawn(move || echo_on(stream));
    }
    Ok(())
}

// ---- measuring

/// What a number of lines did in a time.
#[derive(Clone, Default)]
struct Measured {
    /// Round trips a second.
    rate: f64,
    /// What each of them took, in nanoseconds, in order.
    times: Vec<u64>,
    /// The server's processor time for each, in microseconds, that of other lines included.
    processor: f64,
}

impl Measured {
    /// What this share of the round trips took at most, in microseconds.
    fn quantile(&self, share: f64) -> f64 {
        let place = (self.times.len() as f64 * share) as usize;
        self.times.get(place.min(self.times.len().saturating_sub(1))).map_or(0.0, |&time| time as f64 / 1000.0)
    }
}

/// Takes turns on a line until it is told to stop.
fn drive(line: &mut Line, begin: &Barrier, stop: &AtomicBool) -> Result<Vec<u64>> {
    let mut times = Vec::with_capacity(1 << 17);
    begin.wait();
    while !stop.load(Ordering::Relaxed) {
        let start = Instant::now();
        line.round_trip()?;
        times.push(start.elapsed().as_nanos() as u64);
    }
    Ok(times)
}

/// Lets all lines work for so many seconds, and measures the first ones of them.
fn measure(server: &Server, watched: usize, lines: &mut [Line], seconds: f64) -> Result<Measured> {
    let (begin, stop) = (Barrier::new(lines.len() + 1), AtomicBool::new(false));
    thread::scope(|scope| {
        let driven: Vec<_> = lines.iter_mut().map(|line| scope.spawn(|| drive(line, &begin, &stop))).collect();
        begin.wait();
        let (start, used) = (Instant::now(), server.processor_time()?);
        thread::sleep(Duration::from_secs_f64(seconds));
        let (elapsed, used) = (start.elapsed().as_secs_f64(), server.processor_time()? - used);
        stop.store(true, Ordering::Relaxed);
        let times = driven.into_iter().map(|thread| thread.join().map_err(|_| "a session broke down")?);
        let times: Vec<Vec<u64>> = times.collect::<Result<_>>()?;
        let trips: usize = times.iter().map(Vec::len).sum();
        let mut times = times[..watched].concat();
        times.sort_unstable();
        let (rate, processor) = (times.len() as f64 / elapsed, used as f64 / trips as f64);
        Ok(Measured { rate, times, processor })
    })
}

/// The better of two by their rates.
fn better(one: Measured, other: Measured) -> Measured {
    if one.rate < other.rate { other } else { one }
}

/// Two groups of lines, each to its server.
struct Contest<'a> {
    echo: &'a Server,
    program: &'a Server,
    watched: usize,
    seconds: f64,
}

impl Contest<'_> {
    /// The best of three of each, one after the other in turn.
    fn hold(&self, echoes: &mut [Line], sessions: &mut [Line]) -> Result<(Measured, Measured)> {
        let mut best = (Measured::default(), Measured::default());
        for _ in 0..TRIALS {
            best.0 = better(best.0, measure(self.echo, self.watched, echoes, self.seconds)?);
            best.1 = better(best.1, measure(self.program, self.watched, sessions, self.seconds)?);
        }
        Ok(best)
    }
}

// ---- what the other sessions do

/// Each session closes and opens a channel of its own, in a list as long as a message takes.
fn relays(number: u32) -> Vec<Turn> {
    let list = vec![format!("2!{number}"); 512].join(",");
    vec![
        Turn::query(&format!("ROUT:CLOS (@{list});CLOS? (@2!{number})"), "1"),
        Turn::query(&format!("ROUT:OPEN (@{list});CLOS? (@2!{number})"), "0"),
    ]
}

fn identities(_number: u32) -> Vec<Turn> {
    vec![Turn::identity()]
}

/// A session whose status is asked for, then so many that do this work, and what has to stay open meanwhile.
fn open_watched(port: u16, busy: u32, work: fn(u32) -> Vec<Turn>) -> Result<(Vec<Line>, Vec<TcpStream>)> {
    let (first, second) = open_session(port)?;
    let mut lines = vec![Line::new(second, vec![Turn::status()])];
    let mut kept = vec![first];
    for number in 1..=busy {
        let (first, second) = open_session(port)?;
        lines.push(Line::new(first, work(number)));
        kept.push(second);
    }
    Ok((lines, kept))
}

fn open_watched_echoes(port: u16, busy: u32) -> Result<Vec<Line>> {
    let watched = std::iter::once(open_echo(port, &Turn::status()));
    watched.chain((0..busy).map(|_| open_echo(port, &Turn::identity()))).collect()
}

// ---- tables

fn race_identities(program: &str, seconds: f64) -> Result<()> {
    println!("round trips of *IDN? (22 bytes, answered by 37), the better of {TRIALS} for each, in turn");
    let latencies = "echo us: median    99th | serve us: median    99th";
    println!("sessions   echo/s  serve/s  ratio | {latencies} | processor us: echo serve");
    for count in [1, 4, SESSIONS] {
        let (echo, served) = (Server::echo()?, Server::program(program)?);
        let mut echoes = (0..count).map(|_| open_echo(echo.port, &Turn::identity())).collect::<Result<Vec<_>>>()?;
        let (mut lines, kept) = open_sessions(served.port, count)?;
        let contest = Contest { echo: &echo, program: &served, watched: count as usize, seconds };
        let (bare, own) = contest.hold(&mut echoes, &mut lines)?;
        drop(kept);
        println!(
            "{count:8} {:8.0} {:8.0} {:6.2} | {:15.1} {:7.1} | {:16.1} {:7.1} | {:18.2} {:5.2}",
            bare.rate, own.rate, own.rate / bare.rate, bare.quantile(0.5), bare.quantile(0.99), own.quantile(0.5),
            own.quantile(0.99), bare.processor, own.processor
        );
    }
    Ok(())
}

fn open_sessions(port: u16, count: u32) -> Result<(Vec<Line>, Vec<TcpStream>)> {
    let sessions = (0..count).map(|_| open_session(port)).collect::<Result<Vec<_>>>()?;
    Ok(sessions.into_iter().map(|(first, second)| (Line::new(first, vec![Turn::identity()]), second)).unzip())
}

/// The status queries of one session beside this many working ones, over the echo and over the program.
fn watch(program: &str, busy: u32, work: fn(u32) -> Vec<Turn>, seconds: f64) -> Result<(Measured, Measured)> {
    let (echo, served) = (Server::echo()?, Server::program(program)?);
    let mut echoes = open_watched_echoes(echo.port, busy)?;
    let (mut lines, kept) = open_watched(served.port, busy, work)?;
    let contest = Contest { echo: &echo, program: &served, watched: 1, seconds };
    let best = contest.hold(&mut echoes, &mut lines)?;
    drop(kept);
    Ok(best)
}

fn race_status(program: &str, seconds: f64) -> Result<()> {
    println!("AsyncStatusQuery of one session (16 bytes, answered by 16) while others ask *IDN?");
    println!("  others   echo/s  serve/s  ratio | echo us: median    99th | serve us: median    99th");
    for busy in [0, 3, SESSIONS - 1] {
        let (bare, own) = watch(program, busy, identities, seconds)?;
        println!(
            "{busy:8} {:8.0} {:8.0} {:6.2} | {:15.1} {:7.1} | {:16.1} {:7.1}",
            bare.rate, own.rate, own.rate / bare.rate, bare.quantile(0.5), bare.quantile(0.99), own.quantile(0.5),
            own.quantile(0.99)
        );
    }
    Ok(())
}

fn compare_status(program: &str, seconds: f64) -> Result<()> {
    let (idle_echo, idle) = watch(program, 0, identities, seconds)?;
    println!("status queries a second of one session: of an idle mainframe, and while 15 sessions work");
    println!("{:32} {:>9} {:>9} {:>6} | us: median    99th", "work", "idle/s", "working/s", "ratio");
    let row = |name: &str, idle: f64, own: &Measured| {
        let (median, last) = (own.quantile(0.5), own.quantile(0.99));
        println!("{name:32} {idle:9.0} {:9.0} {:6.3} | {median:10.1} {last:7.1}", own.rate, own.rate / idle);
    };
    let (echo, own) = watch(program, SESSIONS - 1, identities, seconds)?;
    row("the echo, with sizes of *IDN?", idle_echo.rate, &echo);
    row("*IDN?", idle.rate, &own);
    row("relays, lists of 512 channels", idle.rate, &watch(program, SESSIONS - 1, relays, seconds)?.1);
    Ok(())
}

fn main() -> Result<()> {
    let words: Vec<String> = std::env::args().skip(1).collect();
    let seconds = words.get(2).map_or(Ok(1.0), |word| word.parse())?;
    match (words.first().map(String::as_str), words.get(1)) {
        (Some("echo"), None) => echo(),
        (Some("serve"), Some(program)) => {
            race_identities(program, seconds)?;
            race_status(program, seconds)
        }
        (Some("status"), Some(program)) => compare_status(program, seconds),
        _ => Err("load serve|status PROGRAM [SECONDS]".into()),
    }
}
