//! Safe functions for xdpvm: each passes slices that live for the call. Copy this file, and link the library as
//! build.sh does. header.py compares the declarations with the sources of the library.
#![allow(dead_code)]

use std::ffi::c_void;
use std::fmt;
use std::ptr::null_mut;

/// The most bytes of an image.
const MAX_IMAGE: usize = 32_968;

/// The most map rows of an image.
const MAX_MAPS: usize = 16;

/// The most instructions that are explored.
pub const MAX_EXPLORED: u32 = 1_000_000;

#[repr(C)]
#[derive(Default)]
struct Assembled {
    size: usize,
    line: usize,
    column: usize,
}

#[repr(C)]
#[derive(Default)]
struct Verdict {
    said: usize,
    slot: usize,
    bound: u32,
    code: u32,
}

#[repr(C)]
#[derive(Default)]
struct TextSize {
    size: usize,
}

/// A map row: the type, 1 for a hash map and 2 for an array, the sizes in bytes of a key and of a value, and the most keys.
#[repr(C)]
#[derive(Clone, Copy, Debug, Default, PartialEq, Eq)]
pub struct MapRow {
    pub kind: u32,
    pub key_size: u32,
    pub value_size: u32,
    pub entries: u32,
}

#[repr(C)]
#[derive(Default)]
struct Described {
    slots: usize,
    maps: usize,
    version: u32,
}

/// Why a text of maps is refused: the line and the column, from 1, and the code as a number: 3 for M3.
#[repr(C)]
#[derive(Clone, Copy, Debug, Default, PartialEq, Eq)]
pub struct MapRefusal {
    pub line: usize,
    pub column: usize,
    pub code: u32,
}

/// What comes with a packet: a time in nanoseconds, the interface and the receive queue.
#[repr(C)]
#[derive(Clone, Copy, Debug, Default)]
pub struct Head {
    pub time: u64,
    pub interface: u32,
    pub queue: u32,
}

/// How a run ended: r0 at the last exit, and how many steps it took.
#[repr(C)]
#[derive(Clone, Copy, Debug, Default, PartialEq, Eq)]
pub struct Ended {
    pub r0: u64,
    pub steps: u32,
}

#[repr(C)]
#[derive(Default)]
struct TracedEnd {
    r0: u64,
    steps: u32,
    kind: u32,
    reason: u32,
}

#[repr(C)]
#[derive(Default)]
struct Streamed {
    report: usize,
    sent: usize,
    offset: u64,
    frames: u32,
    fault: u32,
}

#[repr(C)]
#[derive(Default)]
struct Rechecked {
    said: usize,
    entry: usize,
    bound: u32,
    rule: u32,
}

#[repr(C)]
#[derive(Default)]
struct Changed {
    answer: u64,
}

/// A program that stays open, with its maps, until it is dropped. Any thread may have it, one at a time.
#[repr(C)]
#[derive(Debug)]
pub struct Session {
    at: *mut c_void,
}

unsafe extern "C" {
    fn xdpvm_version(buffer: *mut u8, buffer_len: usize) -> usize;
    fn xdpvm_assemble(
        text: *const u8,
        text_len: usize,
        image: *mut u8,
        image_len: usize,
        why: *mut u8,
        why_len: usize,
        out: &mut Assembled,
    ) -> u32;
    fn xdpvm_describe(
        image: *const u8,
        image_len: usize,
        rows: *mut MapRow,
        rows_len: usize,
        out: &mut Described,
    ) -> u32;
    fn xdpvm_disassemble(
        image: *const u8,
        image_len: usize,
        text: *mut u8,
        text_len: usize,
        out: &mut TextSize,
    ) -> u32;
    fn xdpvm_verify(
        image: *const u8,
        image_len: usize,
        limit: u32,
        why: *mut u8,
        why_len: usize,
        out: &mut Verdict,
    ) -> u32;
    fn xdpvm_run_once(
        image: *const u8,
        image_len: usize,
        head: &Head,
        packet: *mut u8,
        packet_len: usize,
        out: &mut Ended,
    ) -> u32;
    fn xdpvm_trace_once(
        image: *const u8,
        image_len: usize,
        head: &Head,
        packet: *mut u8,
        packet_len: usize,
        limit: u32,
        out: &mut TracedEnd,
    ) -> u32;
    fn xdpvm_run_stream(
        image: *const u8,
        image_len: usize,
        stream: *const u8,
        stream_len: usize,
        report: *mut u8,
        report_len: usize,
        sent: *mut u8,
        sent_len: usize,
        out: &mut Streamed,
    ) -> u32;
    fn xdpvm_recheck(
        image: *const u8,
        image_len: usize,
        table: *const u8,
        table_len: usize,
        why: *mut u8,
        why_len: usize,
        out: &mut Rechecked,
    ) -> u32;
    fn xdpvm_open(image: *const u8, image_len: usize, session: &mut Session) -> u32;
    fn xdpvm_open_with_table(
        image: *const u8,
        image_len: usize,
        table: *const u8,
        table_len: usize,
        session: &mut Session,
    ) -> u32;
    fn xdpvm_run(
        session: &mut Session,
        head: &Head,
        packet: *mut u8,
        packet_len: usize,
        out: &mut Ended,
    ) -> u32;
    fn xdpvm_stream(
        session: &mut Session,
        stream: *const u8,
        stream_len: usize,
        report: *mut u8,
        report_len: usize,
        sent: *mut u8,
        sent_len: usize,
        out: &mut Streamed,
    ) -> u32;
    fn xdpvm_fill(
        session: &mut Session,
        text: *const u8,
        text_len: usize,
        out: &mut MapRefusal,
    ) -> u32;
    fn xdpvm_list(
        session: &mut Session,
        buffer: *mut u8,
        buffer_len: usize,
        out: &mut TextSize,
    ) -> u32;
    fn xdpvm_lookup(
        session: &mut Session,
        map: usize,
        key: *const u8,
        key_len: usize,
        value: *mut u8,
        value_len: usize,
    ) -> u32;
    fn xdpvm_update(
        session: &mut Session,
        map: usize,
        key: *const u8,
        key_len: usize,
        value: *const u8,
        value_len: usize,
        flags: u64,
        out: &mut Changed,
    ) -> u32;
    fn xdpvm_delete(
        session: &mut Session,
        map: usize,
        key: *const u8,
        key_len: usize,
        out: &mut Changed,
    ) -> u32;
    fn xdpvm_next(
        session: &mut Session,
        map: usize,
        rank: usize,
        key: *mut u8,
        key_len: usize,
        value: *mut u8,
        value_len: usize,
    ) -> u32;
    fn xdpvm_close(session: &mut Session);
    safe fn xdpvm_action(r0: u64) -> u32;
}

/// Why there is no answer.
#[derive(Clone, Debug, PartialEq, Eq)]
pub enum Error {
    /// An argument is outside its limits.
    Wrong,
    /// Refused. The text says why; it is empty where `verify` says more.
    Refused(String),
    Memory,
    /// Neither accepted nor refused: the limit on explored instructions came first.
    Undecided,
}

impl fmt::Display for Error {
    fn fmt(&self, f: &mut fmt::Formatter<'_>) -> fmt::Result {
        match self {
            Error::Wrong => f.write_str("an argument is outside its limits"),
            Error::Refused(why) if why.is_empty() => f.write_str("refused"),
            Error::Refused(why) => f.write_str(why.trim_end()),
            Error::Memory => f.write_str("out of memory"),
            Error::Undecided => f.write_str("more instructions would have to be explored"),
        }
    }
}

impl std::error::Error for Error {}

fn answer<T>(status: u32, value: T, why: Vec<u8>) -> Result<T, Error> {
    match status {
        0 => Ok(value),
        1 => Err(Error::Wrong),
        2 => Err(Error::Refused(String::from_utf8_lossy(&why).into_owned())),
        6 => Err(Error::Undecided),
        _ => Err(Error::Memory),
    }
}

/// Calls with a buffer, and again with a larger one where the returned size is larger.
fn with_room(room: usize, mut call: impl FnMut(&mut [u8]) -> (u32, usize)) -> (u32, Vec<u8>) {
    let mut buffer = vec![0; room];
    let (mut status, mut size) = call(&mut buffer);
    if size > buffer.len() {
        buffer.resize(size, 0);
        (status, size) = call(&mut buffer);
    }
    buffer.truncate(size);
    (status, buffer)
}

/// The version of the library.
pub fn version() -> String {
    let (_, bytes) = with_room(16, |buffer| {
        // SAFETY: the pointer and the length are of a slice that lives for the call.
        (0, unsafe {
            xdpvm_version(buffer.as_mut_ptr(), buffer.len())
        })
    });
    String::from_utf8_lossy(&bytes).into_owned()
}

/// The image of a program text.
pub fn assemble(text: &str) -> Result<Vec<u8>, Error> {
    let mut image = vec![0; MAX_IMAGE];
    let mut out = Assembled::default();
    let (status, why) = with_room(1024, |why| {
        // SAFETY: each pointer and length is of a slice that lives for the call, and what is written overlaps nothing.
        let status = unsafe {
            xdpvm_assemble(
                text.as_ptr(),
                text.len(),
                image.as_mut_ptr(),
                image.len(),
                why.as_mut_ptr(),
                why.len(),
                &mut out,
            )
        };
        (status, if status == 2 { out.size } else { 0 })
    });
    image.truncate(out.size);
    answer(status, image, why)
}

/// What an image has.
#[derive(Clone, Debug, PartialEq, Eq)]
pub struct Description {
    pub version: u32,
    pub slots: usize,
    pub maps: Vec<MapRow>,
}

/// Says what an image has. Its program is not verified.
pub fn describe(image: &[u8]) -> Result<Description, Error> {
    let mut maps = vec![MapRow::default(); MAX_MAPS];
    let mut out = Described::default();
    // SAFETY: as above.
    let status = unsafe {
        xdpvm_describe(
            image.as_ptr(),
            image.len(),
            maps.as_mut_ptr(),
            maps.len(),
            &mut out,
        )
    };
    maps.truncate(out.maps);
    let Described { slots, version, .. } = out;
    let description = Description {
        version,
        slots,
        maps,
    };
    answer(status, description, Vec::new())
}

/// The canonical text of an image's program, which is not verified.
pub fn disassemble(image: &[u8]) -> Result<String, Error> {
    let (status, text) = with_room(1 << 16, |text| {
        let mut out = TextSize::default();
        // SAFETY: as above.
        let status = unsafe {
            xdpvm_disassemble(
                image.as_ptr(),
                image.len(),
                text.as_mut_ptr(),
                text.len(),
                &mut out,
            )
        };
        (status, out.size)
    });
    let text = String::from_utf8_lossy(&text).into_owned();
    answer(status, text, Vec::new())
}

/// The most steps of a run of an accepted program, none of which traps.
pub fn verify(image: &[u8]) -> Result<u32, Error> {
    verify_within(image, MAX_EXPLORED)
}

/// The same, with no more instructions explored than the limit, from 1 to `MAX_EXPLORED`: where that is not enough, the
/// answer is `Error::Undecided`.
pub fn verify_within(image: &[u8], limit: u32) -> Result<u32, Error> {
    let (status, out, why) = judged(image, limit);
    answer(status, out.bound, why)
}

/// Why an image is refused: the code as a number, 9 for V9, 103 for G3, 205 for I5, and the slot, which is 0 for what is no
/// image. None: it is accepted.
pub fn refusal(image: &[u8]) -> Result<Option<(u32, usize)>, Error> {
    match judged(image, MAX_EXPLORED) {
        (2, out, _) => Ok(Some((out.code, out.slot))),
        (status, _, why) => answer(status, None, why),
    }
}

/// The status and the verdict on an image, and why it is refused.
fn judged(image: &[u8], limit: u32) -> (u32, Verdict, Vec<u8>) {
    let mut out = Verdict::default();
    let (status, why) = with_room(1024, |why| {
        // SAFETY: as above.
        let status = unsafe {
            xdpvm_verify(
                image.as_ptr(),
                image.len(),
                limit,
                why.as_mut_ptr(),
                why.len(),
                &mut out,
            )
        };
        (status, if status == 2 { out.said } else { 0 })
    });
    (status, out, why)
}

/// Runs an accepted program on a packet, on starting maps.
pub fn run_once(image: &[u8], head: &Head, packet: &mut [u8]) -> Result<Ended, Error> {
    let mut out = Ended::default();
    // SAFETY: as above; the length of the packet is tested on the other side.
    let status = unsafe {
        xdpvm_run_once(
            image.as_ptr(),
            image.len(),
            head,
            packet.as_mut_ptr(),
            packet.len(),
            &mut out,
        )
    };
    answer(status, out, Vec::new())
}

/// How a traced run ended.
#[derive(Clone, Copy, Debug, PartialEq, Eq)]
pub enum End {
    Exit(Ended),
    /// The number of the reason, from 1 on in the order of docs/REFUSALS.md, and the steps before it.
    Trap(u32, u32),
    Limit,
}

/// Runs a program with every access tested, verified or not, for at most that many steps.
pub fn trace_once(image: &[u8], head: &Head, packet: &mut [u8], limit: u32) -> Result<End, Error> {
    let mut out = TracedEnd::default();
    // SAFETY: as above; the limit is tested on the other side.
    let status = unsafe {
        xdpvm_trace_once(
            image.as_ptr(),
            image.len(),
            head,
            packet.as_mut_ptr(),
            packet.len(),
            limit,
            &mut out,
        )
    };
    let end = match out.kind {
        0 => End::Exit(Ended {
            r0: out.r0,
            steps: out.steps,
        }),
        1 => End::Trap(out.reason, out.steps),
        _ => End::Limit,
    };
    answer(status, end, Vec::new())
}

/// The result of a run over a stream.
#[derive(Clone, Debug, PartialEq, Eq)]
pub struct Ran {
    pub report: Vec<u8>,
    /// The stream of the frames out.
    pub sent: Vec<u8>,
    pub frames: u32,
    /// The fault that ended the stream, 1 for F1, and the offset of its record.
    pub fault: Option<(u32, u64)>,
}

/// Runs an accepted program on the frames of a stream.
pub fn run_stream(image: &[u8], stream: &[u8]) -> Result<Ran, Error> {
    let mut sent = vec![0; stream.len().max(4)];
    let mut out = Streamed::default();
    let (status, report) = with_room(4096, |report| {
        // SAFETY: as above.
        let status = unsafe {
            xdpvm_run_stream(
                image.as_ptr(),
                image.len(),
                stream.as_ptr(),
                stream.len(),
                report.as_mut_ptr(),
                report.len(),
                sent.as_mut_ptr(),
                sent.len(),
                &mut out,
            )
        };
        (status, if status == 0 { out.report } else { 0 })
    });
    sent.truncate(out.sent);
    answer(status, ran(&out, report, sent), Vec::new())
}

fn ran(out: &Streamed, report: Vec<u8>, sent: Vec<u8>) -> Ran {
    Ran {
        report,
        sent,
        frames: out.frames,
        fault: (out.fault != 0).then_some((out.fault, out.offset)),
    }
}

/// The bound that a proof table shows of an image's program, whoever made the table.
pub fn recheck(image: &[u8], table: &[u8]) -> Result<u32, Error> {
    let mut out = Rechecked::default();
    let (status, why) = with_room(1024, |why| {
        // SAFETY: as above.
        let status = unsafe {
            xdpvm_recheck(
                image.as_ptr(),
                image.len(),
                table.as_ptr(),
                table.len(),
                why.as_mut_ptr(),
                why.len(),
                &mut out,
            )
        };
        (status, if status == 2 { out.said } else { 0 })
    });
    answer(status, out.bound, why)
}

// SAFETY: the library proves that a session may go to another thread, and nothing can be done with a `&Session`.
unsafe impl Send for Session {}

impl Session {
    fn closed() -> Session {
        Session { at: null_mut() }
    }

    /// Verifies an image, and opens its program, with starting maps.
    pub fn open(image: &[u8]) -> Result<Session, Error> {
        let mut session = Session::closed();
        // SAFETY: as above; the session is closed.
        let status = unsafe { xdpvm_open(image.as_ptr(), image.len(), &mut session) };
        answer(status, session, Vec::new())
    }

    /// The same by a proof table, whoever made it, in place of a search, with the bound of the table.
    pub fn open_with_table(image: &[u8], table: &[u8]) -> Result<Session, Error> {
        let mut session = Session::closed();
        // SAFETY: as above; the session is closed.
        let status = unsafe {
            xdpvm_open_with_table(
                image.as_ptr(),
                image.len(),
                table.as_ptr(),
                table.len(),
                &mut session,
            )
        };
        answer(status, session, Vec::new())
    }

    /// Runs the program on a packet. The maps keep their contents for the next run.
    pub fn run(&mut self, head: &Head, packet: &mut [u8]) -> Result<Ended, Error> {
        let mut out = Ended::default();
        // SAFETY: as above; the session is one that `open` returned, and no other call has it.
        let status = unsafe { xdpvm_run(self, head, packet.as_mut_ptr(), packet.len(), &mut out) };
        answer(status, out, Vec::new())
    }

    /// Runs the program on the frames of a stream, from what its maps hold on. They keep their contents for the next run. After
    /// `Error::Memory` the frames that were run before have changed the maps.
    pub fn stream(&mut self, stream: &[u8]) -> Result<Ran, Error> {
        let lines = self.list()?.len();
        // The lines of frames, of which each has at most 44 bytes, and as much as the maps hold.
        let mut report = vec![0; (stream.len() / 20 + 2) * 48 + lines];
        let mut sent = vec![0; stream.len().max(4)];
        let mut out = Streamed::default();
        // SAFETY: as above.
        let status = unsafe {
            xdpvm_stream(
                self,
                stream.as_ptr(),
                stream.len(),
                report.as_mut_ptr(),
                report.len(),
                sent.as_mut_ptr(),
                sent.len(),
                &mut out,
            )
        };
        if out.report > report.len() {
            self.end_report(&out, &mut report)?;
        }
        report.truncate(out.report);
        sent.truncate(out.sent);
        answer(status, ran(&out, report, sent), Vec::new())
    }

    /// Puts the lines of the maps, and the last line, behind those of the frames, where they did not fit.
    fn end_report(&mut self, out: &Streamed, report: &mut Vec<u8>) -> Result<(), Error> {
        let last = match out.fault {
            0 => format!("end {}\n", out.frames),
            fault => format!("fault F{fault} at {}\n", out.offset),
        };
        let lines = self.list()?;
        report.truncate(out.report - lines.len() - last.len());
        report.extend_from_slice(lines.as_bytes());
        report.extend_from_slice(last.as_bytes());
        Ok(())
    }

    /// Fills the maps by the lines of a text, `map INDEX KEY VALUE`, each an update with flag 0, in order. Some: a line is
    /// refused; what the lines before it did stays.
    pub fn fill(&mut self, text: &[u8]) -> Result<Option<MapRefusal>, Error> {
        let mut out = MapRefusal::default();
        // SAFETY: as above.
        let status = unsafe { xdpvm_fill(self, text.as_ptr(), text.len(), &mut out) };
        match status {
            2 => Ok(Some(out)),
            _ => answer(status, None, Vec::new()),
        }
    }

    /// The lines of what the maps hold, as a report has them. `fill` reads them.
    pub fn list(&mut self) -> Result<String, Error> {
        let (status, lines) = with_room(4096, |buffer| {
            let mut out = TextSize::default();
            // SAFETY: as above.
            let status = unsafe { xdpvm_list(self, buffer.as_mut_ptr(), buffer.len(), &mut out) };
            (status, out.size)
        });
        let lines = String::from_utf8_lossy(&lines).into_owned();
        answer(status, lines, Vec::new())
    }

    /// Reads the value of a key in a map, and returns whether it has one.
    pub fn lookup(&mut self, map: usize, key: &[u8], value: &mut [u8]) -> Result<bool, Error> {
        // SAFETY: as above.
        found(unsafe {
            xdpvm_lookup(
                self,
                map,
                key.as_ptr(),
                key.len(),
                value.as_mut_ptr(),
                value.len(),
            )
        })
    }

    /// Writes the value of a key in a map, or adds the key, by the flags of `bpf_map_update_elem`. Returns 0, or a
    /// negative error, and then nothing has changed.
    pub fn update(
        &mut self,
        map: usize,
        key: &[u8],
        value: &[u8],
        flags: u64,
    ) -> Result<i64, Error> {
        let mut out = Changed::default();
        // SAFETY: as above.
        let status = unsafe {
            xdpvm_update(
                self,
                map,
                key.as_ptr(),
                key.len(),
                value.as_ptr(),
                value.len(),
                flags,
                &mut out,
            )
        };
        answer(status, out.answer as i64, Vec::new())
    }

    /// Removes a key from a map. Returns 0, or a negative error, and then nothing has changed.
    pub fn delete(&mut self, map: usize, key: &[u8]) -> Result<i64, Error> {
        let mut out = Changed::default();
        // SAFETY: as above.
        let status = unsafe { xdpvm_delete(self, map, key.as_ptr(), key.len(), &mut out) };
        answer(status, out.answer as i64, Vec::new())
    }

    /// Reads the key at a rank, from 0, with its value, and returns whether there is one: of an array by its index, of a
    /// hash map by the bytes of the keys. The first call after a map has changed, or of another map, takes
    /// time for all keys; the next ones do not.
    pub fn key_at(
        &mut self,
        map: usize,
        rank: usize,
        key: &mut [u8],
        value: &mut [u8],
    ) -> Result<bool, Error> {
        // SAFETY: as above.
        found(unsafe {
            xdpvm_next(
                self,
                map,
                rank,
                key.as_mut_ptr(),
                key.len(),
                value.as_mut_ptr(),
                value.len(),
            )
        })
    }
}

impl Drop for Session {
    fn drop(&mut self) {
        // SAFETY: as above, and nothing has the session after this.
        unsafe { xdpvm_close(self) }
    }
}

/// Whether a map has the key.
fn found(status: u32) -> Result<bool, Error> {
    match status {
        7 => Ok(false),
        _ => answer(status, true, Vec::new()),
    }
}

/// The action that r0 names: 0 aborted, 1 drop, 2 pass, 3 tx, 4 redirect, 5 for every other number.
pub fn action(r0: u64) -> u32 {
    xdpvm_action(r0)
}
