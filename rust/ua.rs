//! The OPC UA Binary stack for Rust, over the calls of libua_c.a: nodes, connections of a server, and a client.
//!
//! It has no input and output: octets that came go in, octets to be sent come out. Each call is one of
//! crates/ua_c/include/ua.h, which says what it takes and answers. It is one file, which a program has by `mod ua;`;
//! docs/C.md has the line that links it. Moments are in units of 100 nanoseconds since 1601-01-01 00:00 UTC.
//! tools/check_c_header.py compares its declarations and statuses with ua.h.
#![allow(dead_code)]

use std::error;
use std::fmt;
use std::ptr;
use std::time::SystemTime;

#[repr(C)]
struct Handle {
    at: *mut u8,
}

/// What one end of a connection allows: octets of frames each way, octets and chunks of messages; in front the octets of
/// this structure, as `default()` has them.
#[repr(C)]
#[derive(Debug, Clone, Copy)]
pub struct Limits {
    pub size: u32,
    pub receive_buffer_size: u32,
    pub send_buffer_size: u32,
    pub max_message_size: u32,
    pub max_chunk_count: u32,
}

impl Default for Limits {
    fn default() -> Limits {
        let size = size_of::<Limits>() as u32;
        Limits { size, receive_buffer_size: 65535, send_buffer_size: 65535, max_message_size: 1048576, max_chunk_count: 256 }
    }
}

#[repr(C)]
#[derive(Default, Clone)]
struct CReading {
    value_at: usize,
    value_len: usize,
    source_time: i64,
    server_time: i64,
    status: u32,
    source_picoseconds: u16,
    server_picoseconds: u16,
    has_value: u8,
    has_status: u8,
    has_source_time: u8,
    has_server_time: u8,
    has_source_picoseconds: u8,
    has_server_picoseconds: u8,
}

#[rustfmt::skip]
unsafe extern "C" {
    fn ua_free(handle: *mut Handle);
    fn ua_waiting(handle: *mut Handle) -> usize;
    fn ua_fetch(handle: *mut Handle, buffer: *mut u8, buffer_len: usize, fetched: *mut usize) -> u32;
    fn ua_held(handle: *mut Handle) -> usize;
    fn ua_bound(handle: *mut Handle) -> usize;
    fn ua_nodes_new(file: *const u8, file_len: usize, url: *const u8, url_len: usize, application_uri: *const u8, application_uri_len: usize, name: *const u8, name_len: usize, max_message_size: u32, out: *mut Handle, line: *mut usize, reason: *mut u32) -> u32;
    fn ua_node_find(nodes: *mut Handle, node: *const u8, node_len: usize, index: *mut usize) -> u32;
    fn ua_node_set(nodes: *mut Handle, index: usize, octets: *const u8, octets_len: usize, reading: *const CReading) -> u32;
    fn ua_node_get(nodes: *mut Handle, index: usize, buffer: *mut u8, buffer_len: usize, needed: *mut usize, reading: *mut CReading) -> u32;
    fn ua_connection_new(limits: *const Limits, channel: u32, out: *mut Handle) -> u32;
    fn ua_connection_step(connection: *mut Handle, nodes: *mut Handle, piece: *const u8, piece_len: usize, moment: i64, taken: *mut usize, waiting: *mut usize, code: *mut u32) -> u32;
    fn ua_next_written(connection: *mut Handle, nodes: *mut Handle, index: *mut usize, buffer: *mut u8, buffer_len: usize, needed: *mut usize, reading: *mut CReading) -> u32;
    fn ua_client_new(limits: *const Limits, url: *const u8, url_len: usize, out: *mut Handle) -> u32;
    fn ua_client_hello(handle: *mut Handle) -> u32;
    fn ua_client_take(handle: *mut Handle, piece: *const u8, piece_len: usize, moment: i64, taken: *mut usize, event: *mut u32, id: *mut u32, code: *mut u32) -> u32;
    fn ua_client_ask(handle: *mut Handle, body: *const u8, body_len: usize, id: *mut u32) -> u32;
    fn ua_client_renew(handle: *mut Handle, moment: i64, id: *mut u32) -> u32;
    fn ua_client_close(handle: *mut Handle, moment: i64) -> u32;
    fn ua_dissect(octets: *const u8, octets_len: usize, side: u32, buffer: *mut u8, buffer_len: usize, needed: *mut usize) -> u32;
    fn ua_encode_value(kind: *const u8, kind_len: usize, text: *const u8, text_len: usize, buffer: *mut u8, buffer_len: usize, needed: *mut usize) -> u32;
    fn ua_decode_value(octets: *const u8, octets_len: usize, buffer: *mut u8, buffer_len: usize, needed: *mut usize) -> u32;
    fn ua_value_text(octets: *const u8, octets_len: usize, plain: u32, buffer: *mut u8, buffer_len: usize, needed: *mut usize, name_size: *mut usize) -> u32;
    fn ua_text_value(kind: *const u8, kind_len: usize, text: *const u8, text_len: usize, plain: u32, buffer: *mut u8, buffer_len: usize, needed: *mut usize, reason: *mut u32) -> u32;
    fn ua_get_endpoints_request(url: *const u8, url_len: usize, moment: i64, request: u32, buffer: *mut u8, buffer_len: usize, needed: *mut usize) -> u32;
    fn ua_create_session_request(url: *const u8, url_len: usize, moment: i64, request: u32, buffer: *mut u8, buffer_len: usize, needed: *mut usize) -> u32;
    fn ua_activate_session_request(token: *const u8, token_len: usize, moment: i64, request: u32, buffer: *mut u8, buffer_len: usize, needed: *mut usize) -> u32;
    fn ua_activate_session_request_as(token: *const u8, token_len: usize, policy: *const u8, policy_len: usize, moment: i64, request: u32, buffer: *mut u8, buffer_len: usize, needed: *mut usize, reason: *mut u32) -> u32;
    fn ua_close_session_request(token: *const u8, token_len: usize, moment: i64, request: u32, buffer: *mut u8, buffer_len: usize, needed: *mut usize) -> u32;
    fn ua_read_request(token: *const u8, token_len: usize, moment: i64, request: u32, nodes: *const u8, nodes_len: usize, range: *const u8, range_len: usize, buffer: *mut u8, buffer_len: usize, needed: *mut usize, reason: *mut u32, index: *mut usize) -> u32;
    fn ua_write_request(token: *const u8, token_len: usize, moment: i64, request: u32, node: *const u8, node_len: usize, kind: *const u8, kind_len: usize, text: *const u8, text_len: usize, buffer: *mut u8, buffer_len: usize, needed: *mut usize, reason: *mut u32) -> u32;
    fn ua_response_kind(body: *const u8, body_len: usize, response: *mut u32, service_result: *mut u32) -> u32;
    fn ua_choose_policy(body: *const u8, body_len: usize, buffer: *mut u8, buffer_len: usize, needed: *mut usize, code: *mut u32) -> u32;
    fn ua_session_token(body: *const u8, body_len: usize, buffer: *mut u8, buffer_len: usize, needed: *mut usize, code: *mut u32) -> u32;
    fn ua_response_text(nodes: *const u8, nodes_len: usize, body: *const u8, body_len: usize, buffer: *mut u8, buffer_len: usize, needed: *mut usize, code: *mut u32) -> u32;
    fn ua_readings(body: *const u8, body_len: usize, readings: *mut CReading, readings_len: usize, count: *mut usize, code: *mut u32) -> u32;
    fn ua_version() -> u32;
    fn ua_status_text(status: u32, buffer: *mut u8, buffer_len: usize, needed: *mut usize) -> u32;
    fn ua_code_name(code: u32, buffer: *mut u8, buffer_len: usize, needed: *mut usize) -> u32;
}

/// A status of the library.
#[derive(Debug, Clone, Copy, PartialEq, Eq)]
pub struct Status(pub u32);

#[rustfmt::skip]
impl Status {
    pub const OK: Status = Status(0);
    pub const NO_MEMORY: Status = Status(1);
    pub const BAD_LIMITS: Status = Status(2);
    pub const BAD_NODES: Status = Status(3);
    pub const NO_HANDLE: Status = Status(4);
    pub const CLOSED: Status = Status(5);
    pub const REFUSED: Status = Status(6);
    pub const ENDED: Status = Status(7);
    pub const FETCH_FIRST: Status = Status(8);
    pub const BAD_TEXT: Status = Status(9);
    pub const OTHER_HANDLE: Status = Status(10);
    pub const NOT_OPEN: Status = Status(11);
    pub const TOO_MANY_PENDING: Status = Status(12);
    pub const RENEW_PENDING: Status = Status(13);
    pub const TOO_MANY_TOKENS: Status = Status(14);
    pub const EXHAUSTED: Status = Status(15);
    pub const TOO_LARGE: Status = Status(16);
    pub const EMPTY: Status = Status(17);
    pub const TOO_SMALL: Status = Status(18);
    pub const BAD_SIDE: Status = Status(19);
    pub const BAD_OCTETS: Status = Status(20);
    pub const SERVICE: Status = Status(21);
    pub const UNKNOWN: Status = Status(22);
    pub const MISMATCH: Status = Status(23);
    pub const BAD_READING: Status = Status(24);
    pub const NO_MORE: Status = Status(25);
    pub const NO_POLICY: Status = Status(26);
    pub const NO_TEXT: Status = Status(27);
    pub const BAD_ARGUMENT: Status = Status(28);
}

/// `call` of ua.h answered `status`. The numbers are those that the call tells, each 0 where there is none: the bad
/// line of a node file, its reason or that of a bad text, which of several nodes it is, and the code for which a service failed.
#[derive(Debug, Clone, PartialEq, Eq)]
pub struct Error {
    pub call: &'static str,
    pub status: Status,
    pub line: usize,
    pub reason: u32,
    pub code: u32,
    pub index: usize,
}

impl fmt::Display for Error {
    fn fmt(&self, f: &mut fmt::Formatter<'_>) -> fmt::Result {
        write!(f, "{}: {}", self.call, status_text(self.status))?;
        if self.line != 0 {
            write!(f, ", line {}", self.line)?;
        }
        if self.reason != 0 {
            write!(f, ", reason {}", self.reason)?;
        }
        if self.code != 0 {
            write!(f, ", code {:08X}", self.code)?;
        }
        if self.index != 0 {
            write!(f, ", index {}", self.index)?;
        }
        Ok(())
    }
}

impl error::Error for Error {}

pub type Result<T> = std::result::Result<T, Error>;

fn fault(call: &'static str, status: u32) -> Error {
    Error { call, status: Status(status), line: 0, reason: 0, code: 0, index: 0 }
}

fn check(call: &'static str, status: u32) -> Result<()> {
    if status == Status::OK.0 { Ok(()) } else { Err(fault(call, status)) }
}

/// What `made(buffer, its size, needed, numbers)` puts into a buffer, which is made larger where it is too small.
fn put(call: &'static str, mut made: impl FnMut(*mut u8, usize, &mut usize, &mut Error) -> u32) -> Result<Vec<u8>> {
    let mut buffer = vec![0; 1024];
    loop {
        let (mut needed, mut told) = (0, fault(call, 0));
        let status = made(buffer.as_mut_ptr(), buffer.len(), &mut needed, &mut told);
        match Status(status) {
            Status::OK => {
                buffer.truncate(needed);
                return Ok(buffer);
            }
            Status::TOO_SMALL => buffer.resize(needed, 0),
            _ => return Err(Error { status: Status(status), ..told }),
        }
    }
}

/// The same of a text, which the library makes of UTF-8 alone.
fn put_text(call: &'static str, made: impl FnMut(*mut u8, usize, &mut usize, &mut Error) -> u32) -> Result<String> {
    let octets = put(call, made)?;
    Ok(String::from_utf8(octets).unwrap_or_else(|error| String::from_utf8_lossy(error.as_bytes()).into_owned()))
}

/// The time of the system's clock.
pub fn now() -> i64 {
    let since = SystemTime::now().duration_since(SystemTime::UNIX_EPOCH).unwrap_or_default();
    (since.as_secs() as i64 + 11_644_473_600) * 10_000_000 + i64::from(since.subsec_nanos() / 100)
}

/// What a handle holds, which ends with it. A call has it to itself, on whichever thread.
struct Held(Handle);

unsafe impl Send for Held {}

impl Held {
    fn nothing() -> Held {
        Held(Handle { at: ptr::null_mut() })
    }

    fn waiting(&mut self) -> usize {
        unsafe { ua_waiting(&mut self.0) }
    }

    fn fetch(&mut self) -> Result<Vec<u8>> {
        let mut octets = vec![0; self.waiting()];
        let mut fetched = 0;
        check("ua_fetch", unsafe { ua_fetch(&mut self.0, octets.as_mut_ptr(), octets.len(), &mut fetched) })?;
        octets.truncate(fetched);
        Ok(octets)
    }
}

impl Drop for Held {
    fn drop(&mut self) {
        unsafe { ua_free(&mut self.0) }
    }
}

macro_rules! numbers {
    ($($put:ident $get:ident $id:literal $number:ty;)*) => {
        /// The encodings of numbers as values, and the numbers that values are.
        pub mod value {
            $(
                pub fn $put(number: $number) -> Vec<u8> {
                    let mut octets = vec![$id];
                    octets.extend_from_slice(&number.to_le_bytes());
                    octets
                }

                pub fn $get(value: &[u8]) -> Option<$number> {
                    let (id, number) = value.split_first()?;
                    (*id == $id).then(|| number.try_into().ok().map(<$number>::from_le_bytes))?
                }
            )*
        }
    };
}

numbers! {
    boolean to_boolean 1 u8;
    sbyte to_sbyte 2 i8;
    byte to_byte 3 u8;
    int16 to_int16 4 i16;
    uint16 to_uint16 5 u16;
    int32 to_int32 6 i32;
    uint32 to_uint32 7 u32;
    int64 to_int64 8 i64;
    uint64 to_uint64 9 u64;
    float to_float 10 f32;
    double to_double 11 f64;
    date_time to_date_time 13 i64;
    status_code to_status_code 19 u32;
}

/// The encoding of a value, with its status and times, each where it is there.
#[derive(Debug, Clone, Default, PartialEq, Eq)]
pub struct Reading {
    pub value: Option<Vec<u8>>,
    pub status: Option<u32>,
    pub source_time: Option<i64>,
    pub source_picoseconds: Option<u16>,
    pub server_time: Option<i64>,
    pub server_picoseconds: Option<u16>,
}

impl Reading {
    fn to_c(&self) -> CReading {
        CReading {
            value_at: 0,
            value_len: self.value.as_ref().map_or(0, Vec::len),
            source_time: self.source_time.unwrap_or(0),
            server_time: self.server_time.unwrap_or(0),
            status: self.status.unwrap_or(0),
            source_picoseconds: self.source_picoseconds.unwrap_or(0),
            server_picoseconds: self.server_picoseconds.unwrap_or(0),
            has_value: self.value.is_some().into(),
            has_status: self.status.is_some().into(),
            has_source_time: self.source_time.is_some().into(),
            has_server_time: self.server_time.is_some().into(),
            has_source_picoseconds: self.source_picoseconds.is_some().into(),
            has_server_picoseconds: self.server_picoseconds.is_some().into(),
        }
    }

    fn of_c(octets: &[u8], c: &CReading) -> Reading {
        let value = octets.get(c.value_at..).and_then(|rest| rest.get(..c.value_len)).map(<[u8]>::to_vec);
        Reading {
            value: value.filter(|_| c.has_value != 0),
            status: (c.has_status != 0).then_some(c.status),
            source_time: (c.has_source_time != 0).then_some(c.source_time),
            source_picoseconds: (c.has_source_picoseconds != 0).then_some(c.source_picoseconds),
            server_time: (c.has_server_time != 0).then_some(c.server_time),
            server_picoseconds: (c.has_server_picoseconds != 0).then_some(c.server_picoseconds),
        }
    }
}

/// What a server of nodes says of itself.
#[derive(Debug, Clone, Copy)]
pub struct About<'a> {
    pub url: &'a str,
    pub application_uri: &'a str,
    pub name: &'a str,
    pub max_message_size: u32,
}

/// The place of a node, which stays, among those of the `Nodes` that gave it.
#[derive(Debug, Clone, Copy, PartialEq, Eq)]
pub struct Index(usize);

/// Nodes that connections share.
pub struct Nodes(Held);

impl Nodes {
    /// The nodes of the text of a node file.
    #[rustfmt::skip]
    pub fn new(file: &str, about: &About<'_>) -> Result<Nodes> {
        let (mut held, mut line, mut reason) = (Held::nothing(), 0, 0);
        let About { url, application_uri: uri, name, max_message_size } = *about;
        let status = unsafe {
            ua_nodes_new(file.as_ptr(), file.len(), url.as_ptr(), url.len(), uri.as_ptr(), uri.len(), name.as_ptr(), name.len(), max_message_size, &mut held.0, &mut line, &mut reason)
        };
        if status == Status::OK.0 { Ok(Nodes(held)) } else { Err(Error { line, reason, ..fault("ua_nodes_new", status) }) }
    }

    /// The index of a node, if there is one: look it up once.
    pub fn find(&mut self, node: &str) -> Result<Option<Index>> {
        let mut index = 0;
        match Status(unsafe { ua_node_find(&mut self.0.0, node.as_ptr(), node.len(), &mut index) }) {
            Status::UNKNOWN => Ok(None),
            status => check("ua_node_find", status.0).map(|()| Some(Index(index))),
        }
    }

    /// Sets what a node holds. The reading has a value and a source time.
    pub fn set(&mut self, node: Index, reading: &Reading) -> Result<()> {
        let octets = reading.value.as_deref().unwrap_or_default();
        check("ua_node_set", unsafe { ua_node_set(&mut self.0.0, node.0, octets.as_ptr(), octets.len(), &reading.to_c()) })
    }

    /// What a node holds.
    pub fn get(&mut self, node: Index) -> Result<Reading> {
        let mut reading = CReading::default();
        let octets = put("ua_node_get", |to, room, needed, _| unsafe { ua_node_get(&mut self.0.0, node.0, to, room, needed, &mut reading) })?;
        Ok(Reading::of_c(&octets, &reading))
    }
}

/// What a step did: `status` is `OK`, `ENDED` or `REFUSED`, the last for `code`.
#[derive(Debug, Clone, Copy, PartialEq, Eq)]
pub struct Step {
    pub status: Status,
    pub taken: usize,
    pub code: u32,
}

/// One connection of a server. It is stepped with the same nodes from its first step on.
pub struct Connection(Held);

impl Connection {
    /// Its channel's id is another one than each open connection over the same nodes has.
    pub fn new(channel: u32, limits: &Limits) -> Result<Connection> {
        let mut held = Held::nothing();
        check("ua_connection_new", unsafe { ua_connection_new(limits, channel, &mut held.0) })?;
        Ok(Connection(held))
    }

    /// Takes octets of the client up to the first that are answered: fetch what waits, and go on with the rest.
    pub fn step(&mut self, nodes: &mut Nodes, piece: &[u8], moment: i64) -> Result<Step> {
        let (mut taken, mut waiting, mut code) = (0, 0, 0);
        let status = Status(unsafe {
            ua_connection_step(&mut self.0.0, &mut nodes.0.0, piece.as_ptr(), piece.len(), moment, &mut taken, &mut waiting, &mut code)
        });
        match status {
            Status::OK | Status::ENDED | Status::REFUSED => Ok(Step { status, taken, code }),
            _ => Err(fault("ua_connection_step", status.0)),
        }
    }

    /// The next item of what the Write stored that the last step answered, each once and in order: the index of its
    /// node, and its value with the status and times that the client wrote beside it. Ask behind each step.
    #[rustfmt::skip]
    pub fn next_written(&mut self, nodes: &mut Nodes) -> Result<Option<(Index, Reading)>> {
        let (mut index, mut reading) = (0, CReading::default());
        let octets = put("ua_next_written", |to, room, needed, _| unsafe {
            ua_next_written(&mut self.0.0, &mut nodes.0.0, &mut index, to, room, needed, &mut reading)
        });
        match octets {
            Ok(octets) => Ok(Some((Index(index), Reading::of_c(&octets, &reading)))),
            Err(fault) if fault.status == Status::NO_MORE => Ok(None),
            Err(fault) => Err(fault),
        }
    }

    pub fn waiting(&mut self) -> usize {
        self.0.waiting()
    }

    /// The octets that are to be sent.
    pub fn fetch(&mut self) -> Result<Vec<u8>> {
        self.0.fetch()
    }

    /// How many octets of unfinished messages are held, and the most that may be.
    pub fn held(&mut self) -> (usize, usize) {
        unsafe { (ua_held(&mut self.0.0), ua_bound(&mut self.0.0)) }
    }
}

/// What came of octets that a client took. The numbers are ids of calls and of tokens, and codes.
#[derive(Debug, Clone, Copy, PartialEq, Eq)]
pub enum Event {
    NeedMore,
    Send,
    Open,
    Answered(u32),
    Aborted(u32, u32),
    Renewed(u32),
    Failed(u32),
    FailedByPeer(u32),
}

/// A client of the server of a URL. What its calls make waits: fetch it, and send it.
pub struct Client(Held);

impl Client {
    pub fn new(url: &str, limits: &Limits) -> Result<Client> {
        let mut held = Held::nothing();
        check("ua_client_new", unsafe { ua_client_new(limits, url.as_ptr(), url.len(), &mut held.0) })?;
        Ok(Client(held))
    }

    /// The HEL, which is sent first.
    pub fn hello(&mut self) -> Result<()> {
        check("ua_client_hello", unsafe { ua_client_hello(&mut self.0.0) })
    }

    /// Takes octets of the server up to the first that tell something: how many, and what they tell.
    pub fn take(&mut self, piece: &[u8], moment: i64) -> Result<(usize, Event)> {
        let (mut taken, mut event, mut id, mut code) = (0, 0, 0, 0);
        let status = unsafe {
            ua_client_take(&mut self.0.0, piece.as_ptr(), piece.len(), moment, &mut taken, &mut event, &mut id, &mut code)
        };
        if status != Status::REFUSED.0 {
            check("ua_client_take", status)?;
        }
        let told = match event {
            1 => Event::Send,
            2 => Event::Open,
            3 => Event::Answered(id),
            4 => Event::Aborted(id, code),
            5 => Event::Renewed(id),
            6 => Event::Failed(code),
            7 => Event::FailedByPeer(code),
            _ => Event::NeedMore,
        };
        Ok((taken, told))
    }

    /// Asks a call with this body, and says under which id it is answered.
    pub fn ask(&mut self, body: &[u8]) -> Result<u32> {
        let mut id = 0;
        check("ua_client_ask", unsafe { ua_client_ask(&mut self.0.0, body.as_ptr(), body.len(), &mut id) })?;
        Ok(id)
    }

    /// Asks for a further token.
    pub fn renew(&mut self, moment: i64) -> Result<u32> {
        let mut id = 0;
        check("ua_client_renew", unsafe { ua_client_renew(&mut self.0.0, moment, &mut id) })?;
        Ok(id)
    }

    /// The CLO.
    pub fn close(&mut self, moment: i64) -> Result<()> {
        check("ua_client_close", unsafe { ua_client_close(&mut self.0.0, moment) })
    }

    pub fn waiting(&mut self) -> usize {
        self.0.waiting()
    }

    /// The octets that wait: they are to be sent, or behind `Answered` the body of a reply.
    pub fn fetch(&mut self) -> Result<Vec<u8>> {
        self.0.fetch()
    }
}

/// The lines of the octets that one side of a connection sent, as `ua dissect` has them.
pub fn dissect(octets: &[u8], by_server: bool) -> Result<String> {
    put_text("ua_dissect", |to, room, needed, _| unsafe { ua_dissect(octets.as_ptr(), octets.len(), by_server.into(), to, room, needed) })
}

pub fn encode_value(kind: &str, text: &str) -> Result<Vec<u8>> {
    put("ua_encode_value", |to, room, needed, _| unsafe { ua_encode_value(kind.as_ptr(), kind.len(), text.as_ptr(), text.len(), to, room, needed) })
}

pub fn decode_value(value: &[u8]) -> Result<String> {
    put_text("ua_decode_value", |to, room, needed, _| unsafe { ua_decode_value(value.as_ptr(), value.len(), to, room, needed) })
}

/// The type and the text that denote a value, where it has such: as in a node file, or as people write them.
#[rustfmt::skip]
pub fn value_text(value: &[u8], plain: bool) -> Result<Option<(String, String)>> {
    let mut size = 0;
    match put_text("ua_value_text", |to, room, needed, _| unsafe { ua_value_text(value.as_ptr(), value.len(), plain.into(), to, room, needed, &mut size) }) {
        Ok(whole) => Ok(Some((whole[..size].to_string(), whole[size + 1..].to_string()))),
        Err(error) if error.status == Status::NO_TEXT => Ok(None),
        Err(error) => Err(error),
    }
}

/// The value that a type and a text denote.
#[rustfmt::skip]
pub fn text_value(kind: &str, text: &str, plain: bool) -> Result<Vec<u8>> {
    put("ua_text_value", |to, room, needed, told| unsafe {
        ua_text_value(kind.as_ptr(), kind.len(), text.as_ptr(), text.len(), plain.into(), to, room, needed, &mut told.reason)
    })
}

/// The bodies of requests, for `Client::ask`; `handle` is the RequestHandle.
pub mod request {
    use super::*;

    pub fn get_endpoints(url: &str, moment: i64, handle: u32) -> Result<Vec<u8>> {
        put("ua_get_endpoints_request", |to, room, needed, _| unsafe {
            ua_get_endpoints_request(url.as_ptr(), url.len(), moment, handle, to, room, needed)
        })
    }

    pub fn create_session(url: &str, moment: i64, handle: u32) -> Result<Vec<u8>> {
        put("ua_create_session_request", |to, room, needed, _| unsafe {
            ua_create_session_request(url.as_ptr(), url.len(), moment, handle, to, room, needed)
        })
    }

    pub fn activate_session(token: &str, moment: i64, handle: u32) -> Result<Vec<u8>> {
        put("ua_activate_session_request", |to, room, needed, _| unsafe {
            ua_activate_session_request(token.as_ptr(), token.len(), moment, handle, to, room, needed)
        })
    }

    #[rustfmt::skip]
    pub fn activate_session_as(token: &str, policy: &str, moment: i64, handle: u32) -> Result<Vec<u8>> {
        put("ua_activate_session_request_as", |to, room, needed, told| unsafe {
            ua_activate_session_request_as(token.as_ptr(), token.len(), policy.as_ptr(), policy.len(), moment, handle, to, room, needed, &mut told.reason)
        })
    }

    pub fn close_session(token: &str, moment: i64, handle: u32) -> Result<Vec<u8>> {
        put("ua_close_session_request", |to, room, needed, _| unsafe {
            ua_close_session_request(token.as_ptr(), token.len(), moment, handle, to, room, needed)
        })
    }

    /// `nodes` are NodeIds with an LF between; an empty range asks for the whole.
    #[rustfmt::skip]
    pub fn read(token: &str, nodes: &str, range: &str, moment: i64, handle: u32) -> Result<Vec<u8>> {
        put("ua_read_request", |to, room, needed, told| unsafe {
            ua_read_request(token.as_ptr(), token.len(), moment, handle, nodes.as_ptr(), nodes.len(), range.as_ptr(), range.len(), to, room, needed, &mut told.reason, &mut told.index)
        })
    }

    #[rustfmt::skip]
    pub fn write(token: &str, node: &str, kind: &str, text: &str, moment: i64, handle: u32) -> Result<Vec<u8>> {
        put("ua_write_request", |to, room, needed, told| unsafe {
            ua_write_request(token.as_ptr(), token.len(), moment, handle, node.as_ptr(), node.len(), kind.as_ptr(), kind.len(), text.as_ptr(), text.len(), to, room, needed, &mut told.reason)
        })
    }
}

/// Which response a body is, by the number of its encoding, and its ServiceResult.
pub fn response_kind(body: &[u8]) -> Result<(u32, u32)> {
    let (mut response, mut result) = (0, 0);
    check("ua_response_kind", unsafe { ua_response_kind(body.as_ptr(), body.len(), &mut response, &mut result) })?;
    Ok((response, result))
}

/// The PolicyId for `request::activate_session_as`, of the reply to a GetEndpoints.
pub fn choose_policy(body: &[u8]) -> Result<String> {
    put_text("ua_choose_policy", |to, room, needed, told| unsafe { ua_choose_policy(body.as_ptr(), body.len(), to, room, needed, &mut told.code) })
}

/// The text of the AuthenticationToken in the reply to a CreateSession.
pub fn session_token(body: &[u8]) -> Result<String> {
    put_text("ua_session_token", |to, room, needed, told| unsafe { ua_session_token(body.as_ptr(), body.len(), to, room, needed, &mut told.code) })
}

/// The lines of the reply to a Read or a Write of these nodes, or to a GetEndpoints.
pub fn response_text(nodes: &str, body: &[u8]) -> Result<String> {
    put_text("ua_response_text", |to, room, needed, told| unsafe {
        ua_response_text(nodes.as_ptr(), nodes.len(), body.as_ptr(), body.len(), to, room, needed, &mut told.code)
    })
}

/// The results of the Read whose reply this is, in order.
pub fn readings(body: &[u8]) -> Result<Vec<Reading>> {
    let (mut places, mut count, mut code) = (vec![CReading::default(); body.len() / 16], 0, 0);
    loop {
        let status = unsafe { ua_readings(body.as_ptr(), body.len(), places.as_mut_ptr(), places.len(), &mut count, &mut code) };
        match Status(status) {
            Status::OK => return Ok(places[..count].iter().map(|place| Reading::of_c(body, place)).collect()),
            Status::TOO_SMALL => places.resize(count, CReading::default()),
            _ => return Err(Error { code, ..fault("ua_readings", status) }),
        }
    }
}

/// The version of the library: 65536 times the first number, 256 times the second, and the third.
pub fn version() -> u32 {
    unsafe { ua_version() }
}

/// What a status means, in a few words.
pub fn status_text(status: Status) -> String {
    let text = put_text("ua_status_text", |to, room, needed, _| unsafe { ua_status_text(status.0, to, room, needed) });
    text.unwrap_or_else(|_| format!("status {}", status.0))
}

/// The standard's name of a status code, where it has one that the library knows.
pub fn code_name(code: u32) -> Option<String> {
    put_text("ua_code_name", |to, room, needed, _| unsafe { ua_code_name(code, to, room, needed) }).ok()
}

#[cfg(test)]
mod tests {
    use super::*;

    const URL: &str = "opc.tcp://localhost:4840";
    const FILE: &str = "ns=1;s=Pump\trw\tPump\tInt32\t5\nns=1;s=Temp\tr\tTemp\tDouble\t0x0000000000000000\n";
    const ABOUT: About<'_> = About { url: URL, application_uri: "urn:ua:server", name: "ua", max_message_size: 0 };

    /// A client and a connection over nodes.
    struct Pair {
        client: Client,
        connection: Connection,
        nodes: Nodes,
    }

    impl Pair {
        /// What the client says goes to the connection and back, up to an event.
        fn talk(&mut self) -> Result<Event> {
            let mut event = Event::Send;
            while event == Event::Send {
                let up = self.client.fetch()?;
                let mut at = 0;
                while at < up.len() {
                    at += self.connection.step(&mut self.nodes, &up[at..], 2)?.taken;
                    let down = self.connection.fetch()?;
                    let mut to = 0;
                    while to < down.len() {
                        let (taken, told) = self.client.take(&down[to..], 2)?;
                        (to, event) = (to + taken, told);
                    }
                }
            }
            Ok(event)
        }

        fn ask(&mut self, body: Result<Vec<u8>>) -> Result<Vec<u8>> {
            let id = self.client.ask(&body?)?;
            assert_eq!(self.talk()?, Event::Answered(id));
            self.client.fetch()
        }
    }

    #[test]
    fn a_client_writes_and_the_program_reads() -> Result<()> {
        let (nodes, client) = (Nodes::new(FILE, &ABOUT)?, Client::new(URL, &Limits::default())?);
        let mut pair = Pair { client, connection: Connection::new(1, &Limits::default())?, nodes };
        pair.client.hello()?;
        assert_eq!(pair.talk()?, Event::Open);
        let created = pair.ask(request::create_session(URL, 2, 1))?;
        assert_eq!(response_kind(&created)?, (464, 0));
        let token = session_token(&created)?;
        pair.ask(request::activate_session(&token, 2, 2))?;
        assert_eq!(pair.connection.next_written(&mut pair.nodes)?, None);
        let written = pair.ask(request::write(&token, "ns=1;s=Pump", "Int32", "6", 2, 3))?;
        assert_eq!(response_text("ns=1;s=Pump", &written)?, "ns=1;s=Pump 00000000\n");
        let pump = pair.nodes.find("ns=1;s=Pump")?.unwrap();
        let item = Reading { value: Some(value::int32(6)), ..Reading::default() };
        assert_eq!(pair.connection.next_written(&mut pair.nodes)?, Some((pump, item)));
        assert_eq!(pair.connection.next_written(&mut pair.nodes)?, None);
        let fault = session_token(&written).unwrap_err();
        assert_eq!((fault.call, fault.status), ("ua_session_token", Status::UNKNOWN));
        let read = readings(&pair.ask(request::read(&token, "ns=1;s=Pump\ni=9", "", 2, 4))?)?;
        assert_eq!((read.len(), &read[0].value, read[0].source_time), (2, &Some(value::int32(6)), Some(2)));
        assert_eq!((&read[1].value, read[1].status), (&None, Some(0x80340000)));
        assert_eq!(readings(&written).unwrap_err().status, Status::UNKNOWN);
        pair.ask(request::close_session(&token, 2, 5))?;
        pair.client.close(2)?;
        assert_eq!(pair.connection.step(&mut pair.nodes, &pair.client.fetch()?, 2)?.status, Status::ENDED);
        assert_eq!(value::to_int32(&pair.nodes.get(pump)?.value.unwrap()), Some(6));
        Ok(())
    }

    #[test]
    fn nodes_are_set_and_faults_are_told() -> Result<()> {
        let mut nodes = Nodes::new(FILE, &ABOUT)?;
        let temp = nodes.find("ns=1;s=Temp")?.unwrap();
        assert_eq!(nodes.find("i=9")?, None);
        let reading = Reading { value: Some(value::double(21.5)), source_time: Some(7), ..Reading::default() };
        nodes.set(temp, &reading)?;
        let got = std::thread::spawn(move || nodes.get(temp)).join().unwrap()?;
        assert_eq!((got.value, got.source_time), (reading.value, reading.source_time));
        let fault = Nodes::new("i=1\n", &ABOUT).err().unwrap();
        assert_eq!(fault.to_string(), "ua_nodes_new: a line of the node file is none, line 1, reason 1");
        assert_eq!(decode_value(&encode_value("Int32[]", "10,20")?)?, "Int32[] 10,20");
        assert_eq!(dissect(&[], false)?, "end 0\n");
        assert_eq!((code_name(0x80340000).as_deref(), code_name(1)), (Some("BadNodeIdUnknown"), None));
        assert_eq!(version(), 0x000100);
        Ok(())
    }
}
