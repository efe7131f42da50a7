//! The hub: clients come and go, each with a session's number of its own, until the disk ends or the hub is stopped.
//! One thread waits for whatever happens next, and then takes a turn: requests to the disk by one write, replies to
//! each client by one.

mod ends;
mod joining;
mod turns;

use std::collections::VecDeque;
use std::fs::File;
use std::io::Read;
use std::os::unix::net::{UnixListener, UnixStream};
use std::time::{Duration, Instant};

use crate::client::Client;
use crate::disk::{serving_command, Disk};
use crate::frames::{put_end, put_frame, Asked, Geometry, FREE};
use crate::limits::Users;
use crate::listening::Place;
use crate::log::Log;
use crate::options::Options;
use crate::programs::{image_word, program};
use crate::stats::Stats;
use crate::system::{inherited_listener, note_signals, run_in_batches, Event, Interest, Poll};

use joining::Joiner;
use turns::Turns;

/// How many sessions a disk has.
const SESSIONS: usize = 64;
/// So many connections may ask for the hub's numbers where no session is left.
const GUESTS: usize = 4;
const HEADER_BYTES: usize = 512;
const PIECE: usize = 1 << 16;
const TICK: Duration = Duration::from_millis(10);
const BETWEEN_METRICS: Duration = Duration::from_secs(10);
const SIGHUP: i32 = 1;
const SIGINT: i32 = 2;
const SIGTERM: i32 = 15;
const OF_LISTENER: u64 = 1000;
const OF_OUTPUT: u64 = 1001;
const OF_INPUT: u64 = 1002;
const OF_SIGNALS: u64 = 1003;

/// Why there is no hub.
pub enum NotServed {
    /// No socket was given.
    NoSocket,
    /// What the text says.
    Failed(String),
}

impl From<String> for NotServed {
    fn from(why: String) -> NotServed {
        NotServed::Failed(why)
    }
}

impl From<std::io::Error> for NotServed {
    fn from(error: std::io::Error) -> NotServed {
        NotServed::Failed(error.to_string())
    }
}

/// The socket at which a hub listens.
enum Listening {
    Own(Place),
    OfSystemd(UnixListener),
}

impl Listening {
    fn listener(&self) -> &UnixListener {
        match self {
            Listening::Own(place) => &place.listener,
            Listening::OfSystemd(listener) => listener,
        }
    }
}

/// What a session's number is used for.
enum Slot {
    Free,
    Taken(Client),
    /// The disk closes the session of a client that is gone.
    Closing(u32),
}

/// Whose reply comes.
#[derive(Clone, Copy)]
enum To {
    /// The hub's, which asked whether the disk is open.
    Opening,
    /// The hub's, which closed a session.
    Closed(usize),
    /// A client's.
    Client(usize, u64),
}

/// A request at the disk.
struct Sent {
    to: To,
    asked: Asked,
}

struct Hub<'a> {
    options: &'a Options,
    command: &'static str,
    poll: Poll,
    disk: Disk,
    listening: Listening,
    slots: Vec<Slot>,
    joiners: VecDeque<Joiner>,
    users: Users,
    order: VecDeque<Sent>,
    turns: Turns,
    touched: Vec<usize>,
    geometry: Option<Geometry>,
    stats: Stats,
    log: Log,
    now: Instant,
    next_metrics: Instant,
    generation: u64,
    is_open: bool,
    complaint: Option<&'static str>,
    room: Vec<u8>,
}

/// Serves clients until the disk ends or a signal comes; the status that the hub ends with.
pub fn serve(options: &Options) -> Result<i32, NotServed> {
    let listening = match &options.socket {
        Some(path) => Listening::Own(Place::take(path, options.mode)?),
        None => Listening::OfSystemd(inherited_listener().ok_or(NotServed::NoSocket)?),
    };
    listening.listener().set_nonblocking(true)?;
    let signals = note_signals(&[SIGHUP, SIGINT, SIGTERM])?;
    let program = program(options.program.as_deref())?;
    let command = serving_command(&program);
    let words = [program, image_word(&options.image), command.to_owned(), options.place.clone()];
    let disk = Disk::start(&words).map_err(|error| format!("{}: {error}", words[0]))?;
    run_in_batches();
    let mut hub = Hub::new(options, command, disk, listening, signals)?;
    hub.run()
}

impl Hub<'_> {
    fn new<'a>(
        options: &'a Options,
        command: &'static str,
        disk: Disk,
        listening: Listening,
        signals: UnixStream,
    ) -> Result<Hub<'a>, NotServed> {
        let now = Instant::now();
        let poll = Poll::new()?;
        poll.add(&disk.output, OF_OUTPUT, Interest::Read)?;
        poll.add(&signals, OF_SIGNALS, Interest::Read)?;
        // The end that signals are noted by stays open as long as the process.
        std::mem::forget(signals);
        let mut hub = Hub {
            options,
            command,
            poll,
            disk,
            listening,
            slots: (0..=SESSIONS + GUESTS).map(|_| Slot::Free).collect(),
            joiners: VecDeque::new(),
            users: Users::default(),
            order: VecDeque::new(),
            turns: Turns::new(command == "group"),
            touched: Vec::new(),
            geometry: None,
            stats: Stats::new(now),
            log: Log::new(now),
            now,
            next_metrics: now + BETWEEN_METRICS,
            generation: 0,
            is_open: false,
            complaint: None,
            room: vec![0; PIECE],
        };
        if let Some(path) = &options.metrics {
            Log::write_file(path, &hub.metrics()).map_err(|error| format!("{}: {error}", path.display()))?;
        }
        put_frame(FREE, hub.disk.requests.end());
        hub.expect(To::Opening, Asked::of(FREE));
        Ok(hub)
    }

    fn run(&mut self) -> Result<i32, NotServed> {
        let mut events = Vec::new();
        self.send_to_disk()?;
        loop {
            self.poll.wait(self.patience(), &mut events)?;
            self.now = Instant::now();
            let mut goes_on = true;
            for event in &events {
                goes_on &= self.meet(*event)?;
            }
            if let Some(number) = crate::system::noted_signal() {
                return self.stop(number);
            }
            if !goes_on {
                return self.after_the_disk();
            }
            self.keep_time();
            self.take_turn()?;
        }
    }

    /// How long may be waited.
    fn patience(&self) -> Option<Duration> {
        if let Some(time) = self.time_to_round() {
            return Some(time);
        }
        let has_guests = self.slots[SESSIONS + 1..].iter().any(|slot| matches!(slot, Slot::Taken(_)));
        if !self.joiners.is_empty() || has_guests {
            return Some(TICK);
        }
        let idle = self.options.idle.map(|idle| (idle / 4).max(TICK));
        let metrics = self.options.metrics.as_ref().map(|_| self.next_metrics.saturating_duration_since(self.now));
        idle.into_iter().chain(metrics).min()
    }

    /// Takes what has happened; whether the disk goes on.
    fn meet(&mut self, event: Event) -> Result<bool, NotServed> {
        match event.key {
            OF_LISTENER => self.accept(),
            OF_OUTPUT => return self.take_replies(event.has_ended),
            OF_INPUT => self.send_to_disk()?,
            OF_SIGNALS => {}
            key => self.meet_client((key & 0xff) as usize, key >> 8, event)?,
        }
        Ok(true)
    }

    fn meet_client(&mut self, slot: usize, generation: u64, event: Event) -> Result<(), NotServed> {
        let Slot::Taken(client) = &mut self.slots[slot] else { return Ok(()) };
        if client.generation != generation {
            return Ok(());
        }
        if event.is_writable && client.waits_for_room {
            self.touched.push(slot);
        }
        if event.is_readable {
            client.note_bytes(event.has_ended);
            self.read_client(slot);
        }
        Ok(())
    }

    /// Reads what a client has sent, where there is room for its requests.
    fn read_client(&mut self, slot: usize) {
        let Slot::Taken(client) = &mut self.slots[slot] else { return };
        let come = client.read(&mut self.room, self.now);
        self.stats.queue.come(come, self.now);
        if slot > SESSIONS {
            return self.meet_guest(slot);
        }
        self.turns.note(slot, client);
        if client.is_done() {
            self.finish(slot);
        }
    }

    /// A client is gone: its session is closed, and then its number is free again.
    fn finish(&mut self, slot: usize) {
        let Slot::Taken(client) = std::mem::replace(&mut self.slots[slot], Slot::Free) else { return };
        self.stats.queue.go(client.lying(), self.now);
        self.turns.forget(slot);
        if slot > SESSIONS {
            return;
        }
        let text = format!("session {slot}: ended after {} requests: {}", client.requests, client.peer);
        self.log.line(self.now, &text);
        self.slots[slot] = Slot::Closing(client.user);
        put_end(slot as u32, self.disk.requests.end());
        self.expect(To::Closed(slot), Asked::Nothing);
    }

    fn expect(&mut self, to: To, asked: Asked) {
        self.order.push_back(Sent { to, asked });
        self.stats.at_disk.come(1, self.now);
    }

    fn send_to_disk(&mut self) -> Result<(), NotServed> {
        let is_all = self.disk.send();
        let Some(input) = &self.disk.input else { return Ok(()) };
        if is_all == self.disk.waits_for_room {
            if is_all {
                self.poll.remove(input)?;
            } else {
                self.poll.add(input, OF_INPUT, Interest::Write)?;
            }
            self.disk.waits_for_room = !is_all;
        }
        Ok(())
    }

    /// What is done by the clock: connections that wait, idle clients, and the file of numbers.
    fn keep_time(&mut self) {
        self.let_join();
        self.dismiss_guests();
        self.dismiss_idle();
        if self.options.metrics.is_some() && self.now >= self.next_metrics {
            self.next_metrics = self.now + BETWEEN_METRICS;
            self.keep_metrics();
        }
    }

    fn keep_metrics(&mut self) {
        if let Some(path) = &self.options.metrics {
            let text = self.metrics();
            self.log.keep_file(path, text);
        }
    }

    fn metrics(&self) -> String {
        self.stats.prometheus(self.turns.shares, self.log.left_out_total, self.now)
    }

    /// The disk is open: from now on clients are served.
    fn open(&mut self, reply: &[u8]) -> Result<(), NotServed> {
        let free = reply.get(1..5).map_or(0, |number| u32::from_le_bytes([number[0], number[1], number[2], number[3]]));
        self.geometry = geometry_of(&self.options.image);
        self.poll.add(self.listening.listener(), OF_LISTENER, Interest::Level)?;
        self.is_open = true;
        let (process, command) = (self.disk.process(), self.command);
        self.log.always(&format!("the disk is open in process {process}, {free} blocks are free, by {command}"));
        Ok(())
    }
}

/// What the image's header says. Read once the disk is open: then no record of the journal waits to change it.
fn geometry_of(image: &str) -> Option<Geometry> {
    let mut header = [0; HEADER_BYTES];
    File::open(image).and_then(|mut file| file.read_exact(&mut header)).ok()?;
    Geometry::of_header(&header)
}
