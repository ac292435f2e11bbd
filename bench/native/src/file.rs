//! The register in an SQLite file, by rusqlite, and what each message does to it. Each message is one transaction.

use crate::answer::{self, Refusal, Success};
use crate::message::{self, Head, Message, Report, Role};
use crate::radio::{self, Channel, BANDS, HOUR, LONGEST_AIRTIME, RX2};
use crate::registry::{delay, ensure, FIRST_ADDRESS, TIMES};
use crate::stored_text;
use rusqlite::{params, Connection, OptionalExtension, Params, Row};

/// Those of a desk's file.
const TABLES: &str = "
CREATE TABLE meta (id INTEGER PRIMARY KEY, version INTEGER NOT NULL, receiver TEXT NOT NULL,
    operator TEXT NOT NULL, base INTEGER NOT NULL, addresses INTEGER NOT NULL) STRICT;
CREATE TABLE sender (name TEXT PRIMARY KEY, role INTEGER NOT NULL) STRICT;
CREATE TABLE reply (seq INTEGER PRIMARY KEY, sender TEXT NOT NULL, number INTEGER NOT NULL,
    message BLOB NOT NULL, answer BLOB NOT NULL, UNIQUE (sender, number)) STRICT;
CREATE TABLE owner (name TEXT PRIMARY KEY) STRICT;
CREATE TABLE gateway (name TEXT PRIMARY KEY) STRICT;
CREATE TABLE device (eui BLOB PRIMARY KEY, join_eui BLOB NOT NULL, owner TEXT NOT NULL, floor INTEGER) STRICT;
CREATE TABLE session (number INTEGER PRIMARY KEY, device BLOB NOT NULL, nonce INTEGER NOT NULL,
    next_down INTEGER NOT NULL, UNIQUE (device, nonce)) STRICT;
CREATE TABLE uplink (number INTEGER PRIMARY KEY, session INTEGER NOT NULL, kind INTEGER NOT NULL,
    counter INTEGER NOT NULL, octets BLOB NOT NULL, start INTEGER NOT NULL, airtime INTEGER NOT NULL,
    band INTEGER NOT NULL, UNIQUE (session, kind, counter)) STRICT;
CREATE TABLE copy (uplink INTEGER NOT NULL, gateway TEXT NOT NULL, ended INTEGER NOT NULL, freq INTEGER NOT NULL,
    dr INTEGER NOT NULL, PRIMARY KEY (uplink, gateway)) STRICT;
CREATE TABLE booking (number INTEGER PRIMARY KEY, uplink INTEGER NOT NULL, gateway TEXT NOT NULL,
    session INTEGER NOT NULL, kind INTEGER NOT NULL, band INTEGER NOT NULL, start INTEGER NOT NULL,
    airtime INTEGER NOT NULL, state INTEGER NOT NULL) STRICT;
CREATE INDEX device_owner ON device (owner, eui);
CREATE INDEX uplink_start ON uplink (session, start);
CREATE INDEX booking_start ON booking (gateway, start);
CREATE INDEX booking_uplink ON booking (uplink);
CREATE TABLE band_limit (gateway TEXT NOT NULL, band INTEGER NOT NULL, value INTEGER NOT NULL,
    PRIMARY KEY (gateway, band)) STRICT;";

const JOIN: u8 = 0;
const DATA: u8 = 1;
const BOOKED: u8 = 0;
const SENT: u8 = 1;
const DROPPED: u8 = 2;
/// More than there are different statements.
const STATEMENTS: usize = 64;

/// Why a message isn't a success.
enum Failure {
    Refused(Refusal),
    Sql(rusqlite::Error),
}

impl From<Refusal> for Failure {
    fn from(refusal: Refusal) -> Failure {
        Failure::Refused(refusal)
    }
}

impl From<rusqlite::Error> for Failure {
    fn from(error: rusqlite::Error) -> Failure {
        Failure::Sql(error)
    }
}

struct Uplink {
    number: usize,
    octets: Vec<u8>,
    airtime: u32,
    band: usize,
}

pub struct File {
    connection: Connection,
    name: String,
    addresses: usize,
}

impl File {
    /// The desk in the file, which is made if there is none.
    pub fn open(path: &str, name: &str, operator: &str, addresses: usize) -> rusqlite::Result<File> {
        let connection = Connection::open(path)?;
        connection.set_prepared_statement_cache_capacity(STATEMENTS);
        connection.pragma_update(None, "locking_mode", "EXCLUSIVE")?;
        connection.pragma_update(None, "journal_mode", "WAL")?;
        connection.pragma_update(None, "synchronous", "FULL")?;
        let mut file = File { connection, name: name.to_owned(), addresses };
        if !file.exists("SELECT 1 FROM sqlite_schema", [])? {
            file.make(operator)?;
        }
        Ok(file)
    }

    fn make(&mut self, operator: &str) -> rusqlite::Result<()> {
        let transaction = self.connection.transaction()?;
        transaction.execute_batch(TABLES)?;
        let values = params![self.name, operator, FIRST_ADDRESS, self.addresses];
        transaction.execute("INSERT INTO meta VALUES (1, 2, ?1, ?2, ?3, ?4)", values)?;
        transaction.execute("INSERT INTO sender VALUES (?1, 0)", [operator])?;
        transaction.commit()
    }

    /// Hears a text and returns its answer, which is on the disk then.
    pub fn deliver(&mut self, text: &[u8]) -> rusqlite::Result<Vec<u8>> {
        let value = message::parse(text);
        let Some((head, message)) = value.as_ref().and_then(|value| message::read(value, &self.name)) else {
            return Ok(answer::write(&self.name, None, &Err(Refusal::Malformed)));
        };
        let heard = match message {
            Ok(message) => self.hear(&head, &message),
            Err(refusal) => Err(Failure::Refused(refusal)),
        };
        match heard {
            Ok(answer) => Ok(answer),
            Err(Failure::Refused(refusal)) => Ok(answer::write(&self.name, Some(&head), &Err(refusal))),
            Err(Failure::Sql(error)) => Err(error),
        }
    }

    /// Stores a new message with its answer. A repeat has its answer already. What is refused here isn't stored.
    fn hear(&mut self, head: &Head<'_>, message: &Message) -> Result<Vec<u8>, Failure> {
        self.execute("BEGIN", [])?;
        let heard = self.hear_in_transaction(head, message);
        self.execute(if heard.is_ok() { "COMMIT" } else { "ROLLBACK" }, [])?;
        heard
    }

    fn hear_in_transaction(&self, head: &Head<'_>, message: &Message) -> Result<Vec<u8>, Failure> {
        let role = self.number("SELECT role FROM sender WHERE name = ?1", [head.sender])?.ok_or(Refusal::UnknownSender)?;
        let text = stored_text::write(&self.name, head, message);
        let stored = "SELECT message, answer FROM reply WHERE sender = ?1 AND number = ?2";
        let stored = self.row(stored, params![head.sender, head.transaction], |row| {
            Ok((row.get::<_, Vec<u8>>(0)?, row.get::<_, Vec<u8>>(1)?))
        })?;
        if let Some((first, answer)) = stored {
            ensure(first == text, Refusal::TransactionReused)?;
            return Ok(answer);
        }
        let outcome = match self.decide(if role == 0 { Role::Operator } else { Role::Radio }, message) {
            Ok(success) => Ok(success),
            Err(Failure::Refused(refusal)) => Err(refusal),
            Err(failure) => return Err(failure),
        };
        let answer = answer::write(&self.name, Some(head), &outcome);
        let values = params![head.sender, head.transaction, text, answer];
        self.execute("INSERT INTO reply VALUES (NULL, ?1, ?2, ?3, ?4)", values)?;
        Ok(answer)
    }

    fn decide(&self, role: Role, message: &Message) -> Result<Success, Failure> {
        ensure(role == Role::Operator || !message.is_registration(), Refusal::WrongRole)?;
        match message {
            Message::SenderAdd { sender, role } => self.sender_add(sender, *role),
            Message::OwnerAdd { owner } => self.adds("owner", owner),
            Message::GatewayAdd { gateway } => self.adds("gateway", gateway),
            Message::DeviceAdd { dev_eui, join_eui, owner } => self.device_add(*dev_eui, *join_eui, owner),
            Message::DeviceMove { dev_eui, owner } => self.device_move(*dev_eui, owner),
            Message::JoinHeard { report, is_good } => self.join_heard(report, *is_good),
            Message::FrameHeard { report, counter } => self.frame_heard(report, *counter),
            Message::DownBook { uplink, gateway, window, payload } => self.down_book(*uplink, gateway, *window, payload),
            Message::DownDone { booking, sent } => self.down_done(*booking, *sent),
            Message::LimitSet { gateway, band, limit } => self.limit_set(gateway, *band, *limit),
        }
    }

    // ---- statements

    fn execute(&self, sql: &str, values: impl Params) -> rusqlite::Result<usize> {
        self.connection.prepare_cached(sql)?.execute(values)
    }

    fn row<T>(&self, sql: &str, values: impl Params, read: impl FnOnce(&Row<'_>) -> rusqlite::Result<T>) -> rusqlite::Result<Option<T>> {
        self.connection.prepare_cached(sql)?.query_row(values, read).optional()
    }

    fn number(&self, sql: &str, values: impl Params) -> rusqlite::Result<Option<u64>> {
        self.row(sql, values, |row| row.get(0))
    }

    fn exists(&self, sql: &str, values: impl Params) -> rusqlite::Result<bool> {
        self.connection.prepare_cached(sql)?.exists(values)
    }

    fn is_named(&self, table: &str, name: &str) -> rusqlite::Result<bool> {
        self.exists(&format!("SELECT 1 FROM {table} WHERE name = ?1"), [name])
    }

    /// The start, the end and the band of each booking that the statement finds.
    fn spans(&self, sql: &str, values: impl Params) -> rusqlite::Result<Vec<(i64, i64, usize)>> {
        let mut statement = self.connection.prepare_cached(sql)?;
        let spans = statement.query_map(values, |row| Ok((row.get(0)?, row.get(1)?, row.get(2)?)))?;
        spans.collect()
    }

    // ---- the register

    fn adds(&self, table: &str, name: &str) -> Result<Success, Failure> {
        ensure(!self.is_named(table, name)?, Refusal::Exists)?;
        self.execute(&format!("INSERT INTO {table} VALUES (?1)"), [name])?;
        Ok(Success::Plain)
    }

    fn sender_add(&self, sender: &str, role: Role) -> Result<Success, Failure> {
        ensure(!self.is_named("sender", sender)?, Refusal::Exists)?;
        self.execute("INSERT INTO sender VALUES (?1, ?2)", params![sender, role != Role::Operator])?;
        Ok(Success::Plain)
    }

    fn device_add(&self, dev_eui: u64, join_eui: u64, owner: &str) -> Result<Success, Failure> {
        let (dev_eui, join_eui) = (dev_eui.to_be_bytes(), join_eui.to_be_bytes());
        ensure(self.is_named("owner", owner)?, Refusal::UnknownOwner)?;
        ensure(!self.exists("SELECT 1 FROM device WHERE eui = ?1", [dev_eui])?, Refusal::Exists)?;
        self.execute("INSERT INTO device VALUES (?1, ?2, ?3, NULL)", params![dev_eui, join_eui, owner])?;
        Ok(Success::Plain)
    }

    fn device_move(&self, dev_eui: u64, owner: &str) -> Result<Success, Failure> {
        let dev_eui = dev_eui.to_be_bytes();
        ensure(self.exists("SELECT 1 FROM device WHERE eui = ?1", [dev_eui])?, Refusal::UnknownDevEui)?;
        ensure(self.is_named("owner", owner)?, Refusal::UnknownOwner)?;
        self.execute("UPDATE device SET owner = ?2 WHERE eui = ?1", params![dev_eui, owner])?;
        Ok(Success::Plain)
    }

    fn limit_set(&self, gateway: &str, band: usize, limit: u64) -> Result<Success, Failure> {
        ensure(self.is_named("gateway", gateway)?, Refusal::UnknownGateway)?;
        let used = "SELECT start, start + airtime, band FROM booking WHERE gateway = ?1 AND band = ?2 AND state <> ?3";
        let used = self.spans(used, params![gateway, band + 1, DROPPED])?;
        ensure(radio::peak(used.iter().map(|span| (span.0, span.1)).collect()) <= limit, Refusal::Duty)?;
        let limit_set = "INSERT INTO band_limit VALUES (?1, ?2, ?3) ON CONFLICT (gateway, band) DO UPDATE SET value = excluded.value";
        self.execute(limit_set, params![gateway, band + 1, limit])?;
        Ok(Success::Plain)
    }

    // ---- uplinks

    fn time_and_gateway(&self, report: &Report) -> Result<(), Failure> {
        ensure(TIMES.contains(&report.time), Refusal::Time)?;
        ensure(self.is_named("gateway", &report.gateway)?, Refusal::UnknownGateway)?;
        Ok(())
    }

    fn join_heard(&self, report: &Report, is_good: bool) -> Result<Success, Failure> {
        self.time_and_gateway(report)?;
        let request = radio::join_request(&report.payload).ok_or(Refusal::BadFrame)?;
        let band = report.channel.band().ok_or(Refusal::OutOfBand)?;
        let (dev_eui, nonce) = (request.dev_eui.to_be_bytes(), request.dev_nonce);
        let join_eui = self.row("SELECT join_eui FROM device WHERE eui = ?1", [dev_eui], |row| row.get::<_, [u8; 8]>(0))?;
        ensure(join_eui.ok_or(Refusal::UnknownDevEui)? == request.join_eui.to_be_bytes(), Refusal::JoinEui)?;
        ensure(is_good, Refusal::MicFailed)?;
        let known = self.number("SELECT number FROM session WHERE device = ?1 AND nonce = ?2", params![dev_eui, nonce])?;
        let used = match known {
            Some(session) => self.uplink(session, JOIN, u32::from(nonce))?,
            None => None,
        };
        let copied = used.filter(|uplink| uplink.octets == report.payload);
        let is_copy = copied.is_some();
        let (session, uplink) = match (known, copied) {
            (Some(session), Some(uplink)) => (session, uplink),
            _ => {
                let last = self.number("SELECT nonce FROM session WHERE device = ?1 ORDER BY nonce DESC LIMIT 1", [dev_eui])?;
                ensure(last.map_or(true, |last| u64::from(nonce) > last), Refusal::Nonce)?;
                let sessions = self.number("SELECT number FROM session ORDER BY number DESC LIMIT 1", [])?.unwrap_or(0);
                ensure(sessions < self.addresses as u64, Refusal::Addresses)?;
                self.execute("INSERT INTO session VALUES (NULL, ?1, ?2, 0)", params![dev_eui, nonce])?;
                (sessions + 1, self.booked_uplink(sessions + 1, JOIN, u32::from(nonce), report, band)?)
            }
        };
        self.received(&uplink, report)?;
        let Uplink { number, airtime, band, .. } = uplink;
        Ok(Success::Join { airtime, band, is_copy, dev_addr: FIRST_ADDRESS + session as u32 - 1, uplink: number })
    }

    fn frame_heard(&self, report: &Report, counter: Option<u32>) -> Result<Success, Failure> {
        self.time_and_gateway(report)?;
        let frame = radio::data_frame(&report.payload, true).filter(|_| report.channel.takes(report.payload.len()));
        let frame = frame.ok_or(Refusal::BadFrame)?;
        let band = report.channel.band().ok_or(Refusal::OutOfBand)?;
        let session = u64::from(frame.dev_addr.checked_sub(FIRST_ADDRESS).ok_or(Refusal::UnknownDevAddr)?) + 1;
        let device = "SELECT eui, floor FROM session JOIN device ON eui = device WHERE number = ?1";
        let device = self.row(device, [session], |row| Ok((row.get::<_, [u8; 8]>(0)?, row.get::<_, Option<u64>>(1)?)))?;
        let (dev_eui, floor) = device.ok_or(Refusal::UnknownDevAddr)?;
        let counter = counter.ok_or(Refusal::MicFailed)?;
        let used = self.uplink(session, DATA, counter)?;
        let is_used = used.is_some();
        let copied = used.filter(|uplink| uplink.octets == report.payload);
        let is_copy = copied.is_some();
        let uplink = match copied {
            Some(uplink) => uplink,
            None => {
                ensure(floor.map_or(true, |floor| session >= floor), Refusal::SessionEnded)?;
                ensure(!is_used, Refusal::Replayed)?;
                let last = "SELECT counter FROM uplink WHERE session = ?1 AND kind = ?2 ORDER BY counter DESC LIMIT 1";
                let last = self.number(last, params![session, DATA])?.map(|last| last as u32);
                ensure(last.map_or(true, |last| counter > last), Refusal::Late)?;
                ensure(radio::counter_after(last, frame.fcnt) == Some(counter), Refusal::Gap)?;
                if floor != Some(session) {
                    self.execute("UPDATE device SET floor = ?2 WHERE eui = ?1", params![dev_eui, session])?;
                }
                self.booked_uplink(session, DATA, counter, report, band)?
            }
        };
        self.received(&uplink, report)?;
        let Uplink { number, airtime, band, .. } = uplink;
        let dev_eui = u64::from_be_bytes(dev_eui);
        Ok(Success::Frame { airtime, band, is_copy, counter, dev_eui, uplink: number })
    }

    fn uplink(&self, session: u64, kind: u8, counter: u32) -> rusqlite::Result<Option<Uplink>> {
        let found = "SELECT number, octets, airtime, band FROM uplink WHERE session = ?1 AND kind = ?2 AND counter = ?3";
        self.row(found, params![session, kind, counter], |row| {
            let (number, octets, airtime) = (row.get(0)?, row.get(1)?, row.get(2)?);
            Ok(Uplink { number, octets, airtime, band: row.get::<_, usize>(3)? - 1 })
        })
    }

    fn booked_uplink(&self, session: u64, kind: u8, counter: u32, report: &Report, band: usize) -> rusqlite::Result<Uplink> {
        let octets = report.payload.clone();
        let airtime = report.channel.airtime(octets.len(), true);
        let start = report.time - u64::from(airtime);
        let values = params![session, kind, counter, octets, start, airtime, band + 1];
        self.execute("INSERT INTO uplink VALUES (NULL, ?1, ?2, ?3, ?4, ?5, ?6, ?7)", values)?;
        Ok(Uplink { number: self.connection.last_insert_rowid() as usize, octets, airtime, band })
    }

    /// The gateway's reception of the uplink, if it is its first.
    fn received(&self, uplink: &Uplink, report: &Report) -> rusqlite::Result<()> {
        let Channel { freq, data_rate } = report.channel;
        let values = params![uplink.number, report.gateway, report.time, freq, data_rate];
        self.execute("INSERT OR IGNORE INTO copy VALUES (?1, ?2, ?3, ?4, ?5)", values)?;
        Ok(())
    }

    // ---- downlinks

    fn down_book(&self, number: u64, gateway: &str, window: u8, payload: &[u8]) -> Result<Success, Failure> {
        ensure(self.is_named("gateway", gateway)?, Refusal::UnknownGateway)?;
        let heard = "SELECT session, kind, ended, freq, dr, next_down FROM uplink JOIN copy ON copy.uplink = uplink.number \
            JOIN session ON session.number = session WHERE uplink.number = ?1 AND gateway = ?2";
        let heard = self.row(heard, params![number, gateway], |row| {
            let channel = Channel { freq: row.get(3)?, data_rate: row.get(4)? };
            Ok((row.get::<_, u32>(0)?, row.get::<_, u8>(1)? == JOIN, row.get::<_, u64>(2)?, channel, row.get::<_, u32>(5)?))
        })?;
        let (session, is_join, ended, channel, next_down) = heard.ok_or(Refusal::NoUplink)?;
        let channel = if window == 1 { channel } else { RX2 };
        let frame = radio::data_frame(payload, false);
        let is_frame = if is_join { radio::is_join_accept(payload) } else { frame.is_some() };
        ensure(is_frame && channel.takes(payload.len()), Refusal::BadFrame)?;
        let frame = frame.filter(|_| !is_join);
        let address = FIRST_ADDRESS + session - 1;
        ensure(frame.as_ref().map_or(true, |frame| frame.dev_addr == address), Refusal::UnknownDevAddr)?;
        let answered = "SELECT 1 FROM booking WHERE uplink = ?1 AND state <> ?2";
        ensure(!self.exists(answered, params![number, DROPPED])?, Refusal::Answered)?;
        ensure(frame.as_ref().map_or(true, |frame| frame.fcnt == next_down as u16), Refusal::DownCounter)?;
        let start = (ended + delay(is_join, window)) as i64;
        let airtime = channel.airtime(payload.len(), false);
        let end = start + i64::from(airtime);
        let band = channel.band().ok_or(Refusal::OutOfBand)?;
        let near = "SELECT start, start + airtime, band FROM booking WHERE gateway = ?1 AND start > ?2 AND start < ?3 AND state <> ?4";
        let (first, after) = (start - HOUR - LONGEST_AIRTIME, start + HOUR + LONGEST_AIRTIME);
        let near = self.spans(near, params![gateway, first, after, DROPPED])?;
        ensure(!near.iter().any(|span| span.0 < end && start < span.1), Refusal::Collision)?;
        let in_band = near.iter().filter(|span| span.2 == band + 1);
        let used = in_band.map(|span| (span.0, span.1)).chain([(start, end)]).collect();
        let limit = self.number("SELECT value FROM band_limit WHERE gateway = ?1 AND band = ?2", params![gateway, band + 1])?;
        ensure(radio::peak(used) <= limit.unwrap_or(BANDS[band].limit), Refusal::Duty)?;
        let values = params![number, gateway, session, if is_join { JOIN } else { DATA }, band + 1, start, airtime, BOOKED];
        self.execute("INSERT INTO booking VALUES (NULL, ?1, ?2, ?3, ?4, ?5, ?6, ?7, ?8)", values)?;
        let booking = self.connection.last_insert_rowid() as usize;
        if !is_join {
            self.execute("UPDATE session SET next_down = next_down + 1 WHERE number = ?1", [session])?;
        }
        Ok(Success::Down { airtime, band, booking, start: start as u64 })
    }

    fn down_done(&self, number: u64, sent: bool) -> Result<Success, Failure> {
        let state = self.number("SELECT state FROM booking WHERE number = ?1", [number])?.ok_or(Refusal::NoBooking)?;
        ensure(state == u64::from(BOOKED), Refusal::Done)?;
        let state = if sent { SENT } else { DROPPED };
        self.execute("UPDATE booking SET state = ?2 WHERE number = ?1", params![number, state])?;
        Ok(Success::Plain)
    }
}
