//! The register in memory, and what each message does to it.

use crate::answer::{self, Refusal, Success};
use crate::message::{self, Head, Message, Report, Role};
use crate::radio::{self, Channel, BANDS, HOUR, LONGEST_AIRTIME, RX2};
use std::borrow::Cow;
use std::collections::{BTreeSet, HashMap, HashSet};

pub const FIRST_ADDRESS: u32 = 0x01a0_0000;
/// The beginning of 2000 and of 2100.
pub const TIMES: std::ops::RangeInclusive<u64> = 946_684_800_000_000..=4_102_444_800_000_000;

struct Sender {
    role: Role,
    /// The messages by their transaction numbers, with their answers.
    heard: HashMap<u32, (Message, Vec<u8>)>,
}

struct Device {
    join_eui: u64,
    owner: String,
    last_nonce: Option<u16>,
    /// The latest session that has a data uplink.
    floor: usize,
}

struct Session {
    dev_eui: u64,
    last_counter: Option<u32>,
    downlinks: u32,
}

struct Reception {
    gateway: String,
    time: u64,
    channel: Channel,
}

struct Uplink {
    is_join: bool,
    session: usize,
    octets: Vec<u8>,
    airtime: u32,
    band: usize,
    receptions: Vec<Reception>,
    is_answered: bool,
}

#[derive(Clone, Copy, PartialEq)]
enum State {
    Booked,
    Sent,
    Dropped,
}

struct Booking {
    uplink: usize,
    band: usize,
    start: i64,
    end: i64,
    state: State,
}

/// Uplinks, sessions and bookings are numbered from 1: number n is at place n - 1.
pub struct Registry {
    name: String,
    addresses: usize,
    senders: HashMap<String, Sender>,
    owners: HashSet<String>,
    /// Of each gateway its bookings: start and number.
    gateways: HashMap<String, BTreeSet<(i64, usize)>>,
    devices: HashMap<u64, Device>,
    sessions: Vec<Session>,
    uplinks: Vec<Uplink>,
    /// The uplink of a device's DevNonce, and of a session's counter.
    joins: HashMap<(u64, u16), usize>,
    frames: HashMap<(usize, u32), usize>,
    bookings: Vec<Booking>,
    limits: HashMap<(String, usize), u64>,
}

pub fn ensure(holds: bool, refusal: Refusal) -> Result<(), Refusal> {
    if holds { Ok(()) } else { Err(refusal) }
}

impl Registry {
    pub fn new(name: &str, operator: &str, addresses: usize) -> Registry {
        let first = Sender { role: Role::Operator, heard: HashMap::new() };
        Registry {
            name: name.to_owned(),
            addresses,
            senders: HashMap::from([(operator.to_owned(), first)]),
            owners: HashSet::new(),
            gateways: HashMap::new(),
            devices: HashMap::new(),
            sessions: Vec::new(),
            uplinks: Vec::new(),
            joins: HashMap::new(),
            frames: HashMap::new(),
            bookings: Vec::new(),
            limits: HashMap::new(),
        }
    }

    /// Hears a text and returns its answer.
    pub fn deliver(&mut self, text: &[u8]) -> Cow<'_, [u8]> {
        let value = message::parse(text);
        let Some((head, message)) = value.as_ref().and_then(|value| message::read(value, &self.name)) else {
            return Cow::Owned(answer::write(&self.name, None, &Err(Refusal::Malformed)));
        };
        match message.and_then(|message| self.hear(&head, message)) {
            Ok(()) => Cow::Borrowed(&self.senders[head.sender].heard[&head.transaction].1),
            Err(refusal) => Cow::Owned(answer::write(&self.name, Some(&head), &Err(refusal))),
        }
    }

    /// Stores a new message with its answer. A repeat has its answer already. What is refused here isn't stored.
    fn hear(&mut self, head: &Head<'_>, message: Message) -> Result<(), Refusal> {
        let sender = self.senders.get(head.sender).ok_or(Refusal::UnknownSender)?;
        if let Some((heard, _)) = sender.heard.get(&head.transaction) {
            return ensure(*heard == message, Refusal::TransactionReused);
        }
        let role = sender.role;
        let outcome = self.decide(role, &message);
        let answer = answer::write(&self.name, Some(head), &outcome);
        if let Some(sender) = self.senders.get_mut(head.sender) {
            sender.heard.insert(head.transaction, (message, answer));
        }
        Ok(())
    }

    fn decide(&mut self, role: Role, message: &Message) -> Result<Success, Refusal> {
        ensure(role == Role::Operator || !message.is_registration(), Refusal::WrongRole)?;
        match message {
            Message::SenderAdd { sender, role } => self.sender_add(sender, *role),
            Message::OwnerAdd { owner } => {
                ensure(self.owners.insert(owner.clone()), Refusal::Exists)?;
                Ok(Success::Plain)
            }
            Message::GatewayAdd { gateway } => self.gateway_add(gateway),
            Message::DeviceAdd { dev_eui, join_eui, owner } => self.device_add(*dev_eui, *join_eui, owner),
            Message::DeviceMove { dev_eui, owner } => self.device_move(*dev_eui, owner),
            Message::JoinHeard { report, is_good } => self.join_heard(report, *is_good),
            Message::FrameHeard { report, counter } => self.frame_heard(report, *counter),
            Message::DownBook { uplink, gateway, window, payload } => self.down_book(*uplink, gateway, *window, payload),
            Message::DownDone { booking, sent } => self.down_done(*booking, *sent),
            Message::LimitSet { gateway, band, limit } => self.limit_set(gateway, *band, *limit),
        }
    }

    fn sender_add(&mut self, sender: &str, role: Role) -> Result<Success, Refusal> {
        ensure(!self.senders.contains_key(sender), Refusal::Exists)?;
        self.senders.insert(sender.to_owned(), Sender { role, heard: HashMap::new() });
        Ok(Success::Plain)
    }

    fn gateway_add(&mut self, gateway: &str) -> Result<Success, Refusal> {
        ensure(!self.gateways.contains_key(gateway), Refusal::Exists)?;
        self.gateways.insert(gateway.to_owned(), BTreeSet::new());
        Ok(Success::Plain)
    }

    fn device_add(&mut self, dev_eui: u64, join_eui: u64, owner: &str) -> Result<Success, Refusal> {
        ensure(self.owners.contains(owner), Refusal::UnknownOwner)?;
        ensure(!self.devices.contains_key(&dev_eui), Refusal::Exists)?;
        let device = Device { join_eui, owner: owner.to_owned(), last_nonce: None, floor: 0 };
        self.devices.insert(dev_eui, device);
        Ok(Success::Plain)
    }

    fn device_move(&mut self, dev_eui: u64, owner: &str) -> Result<Success, Refusal> {
        let device = self.devices.get_mut(&dev_eui).ok_or(Refusal::UnknownDevEui)?;
        ensure(self.owners.contains(owner), Refusal::UnknownOwner)?;
        device.owner = owner.to_owned();
        Ok(Success::Plain)
    }

    fn limit_set(&mut self, gateway: &str, band: usize, limit: u64) -> Result<Success, Refusal> {
        let booked = self.gateways.get(gateway).ok_or(Refusal::UnknownGateway)?;
        let used = self.spans(booked.iter(), |booking| booking.band == band);
        ensure(radio::peak(used) <= limit, Refusal::Duty)?;
        self.limits.insert((gateway.to_owned(), band), limit);
        Ok(Success::Plain)
    }

    /// When each of these bookings that isn't dropped begins and ends.
    fn spans<'b>(&self, booked: impl Iterator<Item = &'b (i64, usize)>, is_meant: impl Fn(&Booking) -> bool) -> Vec<(i64, i64)> {
        let bookings = booked.map(|&(_, number)| &self.bookings[number - 1]);
        bookings.filter(|b| b.state != State::Dropped && is_meant(b)).map(|b| (b.start, b.end)).collect()
    }

    // ---- uplinks

    fn time_and_gateway(&self, report: &Report) -> Result<(), Refusal> {
        ensure(TIMES.contains(&report.time), Refusal::Time)?;
        ensure(self.gateways.contains_key(&report.gateway), Refusal::UnknownGateway)
    }

    fn join_heard(&mut self, report: &Report, is_good: bool) -> Result<Success, Refusal> {
        self.time_and_gateway(report)?;
        let request = radio::join_request(&report.payload).ok_or(Refusal::BadFrame)?;
        let band = report.channel.band().ok_or(Refusal::OutOfBand)?;
        let device = self.devices.get_mut(&request.dev_eui).ok_or(Refusal::UnknownDevEui)?;
        ensure(request.join_eui == device.join_eui, Refusal::JoinEui)?;
        ensure(is_good, Refusal::MicFailed)?;
        let key = (request.dev_eui, request.dev_nonce);
        let copied = self.joins.get(&key).copied().filter(|&n| self.uplinks[n - 1].octets == report.payload);
        let uplink = match copied {
            Some(uplink) => uplink,
            None => {
                ensure(device.last_nonce.map_or(true, |last| request.dev_nonce > last), Refusal::Nonce)?;
                ensure(self.sessions.len() < self.addresses, Refusal::Addresses)?;
                device.last_nonce = Some(request.dev_nonce);
                self.sessions.push(Session { dev_eui: request.dev_eui, last_counter: None, downlinks: 0 });
                let uplink = self.booked_uplink(true, self.sessions.len(), report, band);
                self.joins.insert(key, uplink);
                uplink
            }
        };
        let Uplink { airtime, band, session, .. } = *self.received(uplink, report);
        let dev_addr = FIRST_ADDRESS + session as u32 - 1;
        Ok(Success::Join { airtime, band, is_copy: copied.is_some(), dev_addr, uplink })
    }

    fn frame_heard(&mut self, report: &Report, counter: Option<u32>) -> Result<Success, Refusal> {
        self.time_and_gateway(report)?;
        let frame = radio::data_frame(&report.payload, true).filter(|_| report.channel.takes(report.payload.len()));
        let frame = frame.ok_or(Refusal::BadFrame)?;
        let band = report.channel.band().ok_or(Refusal::OutOfBand)?;
        let number = (frame.dev_addr.checked_sub(FIRST_ADDRESS)).ok_or(Refusal::UnknownDevAddr)? as usize + 1;
        let session = self.sessions.get_mut(number - 1).ok_or(Refusal::UnknownDevAddr)?;
        let counter = counter.ok_or(Refusal::MicFailed)?;
        let dev_eui = session.dev_eui;
        let used = self.frames.get(&(number, counter)).copied();
        let copied = used.filter(|&n| self.uplinks[n - 1].octets == report.payload);
        let uplink = match copied {
            Some(uplink) => uplink,
            None => {
                let device = self.devices.get_mut(&dev_eui).ok_or(Refusal::UnknownDevEui)?;
                ensure(number >= device.floor, Refusal::SessionEnded)?;
                ensure(used.is_none(), Refusal::Replayed)?;
                ensure(session.last_counter.map_or(true, |last| counter > last), Refusal::Late)?;
                ensure(radio::counter_after(session.last_counter, frame.fcnt) == Some(counter), Refusal::Gap)?;
                session.last_counter = Some(counter);
                device.floor = number;
                let uplink = self.booked_uplink(false, number, report, band);
                self.frames.insert((number, counter), uplink);
                uplink
            }
        };
        let Uplink { airtime, band, .. } = *self.received(uplink, report);
        Ok(Success::Frame { airtime, band, is_copy: copied.is_some(), counter, dev_eui, uplink })
    }

    /// Books an uplink and returns its number.
    fn booked_uplink(&mut self, is_join: bool, session: usize, report: &Report, band: usize) -> usize {
        let octets = report.payload.clone();
        let airtime = report.channel.airtime(octets.len(), true);
        self.uplinks.push(Uplink { is_join, session, octets, airtime, band, receptions: Vec::new(), is_answered: false });
        self.uplinks.len()
    }

    /// The uplink, with the gateway's reception of it.
    fn received(&mut self, uplink: usize, report: &Report) -> &Uplink {
        let uplink = &mut self.uplinks[uplink - 1];
        if !uplink.receptions.iter().any(|reception| reception.gateway == report.gateway) {
            let (gateway, time, channel) = (report.gateway.clone(), report.time, report.channel);
            uplink.receptions.push(Reception { gateway, time, channel });
        }
        uplink
    }

    // ---- downlinks

    fn down_book(&mut self, number: u64, gateway: &str, window: u8, payload: &[u8]) -> Result<Success, Refusal> {
        let booked = self.gateways.get(gateway).ok_or(Refusal::UnknownGateway)?;
        let number = usize::try_from(number).ok().filter(|&n| n >= 1).ok_or(Refusal::NoUplink)?;
        let uplink = self.uplinks.get(number - 1).ok_or(Refusal::NoUplink)?;
        let reception = uplink.receptions.iter().find(|it| it.gateway == gateway).ok_or(Refusal::NoUplink)?;
        let channel = if window == 1 { reception.channel } else { RX2 };
        let frame = radio::data_frame(payload, false);
        let is_frame = if uplink.is_join { radio::is_join_accept(payload) } else { frame.is_some() };
        ensure(is_frame && channel.takes(payload.len()), Refusal::BadFrame)?;
        let session = &self.sessions[uplink.session - 1];
        let frame = frame.filter(|_| !uplink.is_join);
        let address = FIRST_ADDRESS + uplink.session as u32 - 1;
        ensure(frame.as_ref().map_or(true, |frame| frame.dev_addr == address), Refusal::UnknownDevAddr)?;
        ensure(!uplink.is_answered, Refusal::Answered)?;
        ensure(frame.as_ref().map_or(true, |frame| frame.fcnt == session.downlinks as u16), Refusal::DownCounter)?;
        let start = (reception.time + delay(uplink.is_join, window)) as i64;
        let airtime = channel.airtime(payload.len(), false);
        let end = start + i64::from(airtime);
        let band = channel.band().ok_or(Refusal::OutOfBand)?;
        let near = || booked.range((start - HOUR - LONGEST_AIRTIME, 0)..(start + HOUR + LONGEST_AIRTIME, 0));
        let collides = |b: &(i64, i64)| b.0 < end && start < b.1;
        ensure(!self.spans(near(), |_| true).iter().any(collides), Refusal::Collision)?;
        let mut used = self.spans(near(), |booking| booking.band == band);
        used.push((start, end));
        let limit = self.limits.get(&(gateway.to_owned(), band)).copied().unwrap_or(BANDS[band].limit);
        ensure(radio::peak(used) <= limit, Refusal::Duty)?;
        let session = uplink.session;
        self.bookings.push(Booking { uplink: number, band, start, end, state: State::Booked });
        let booking = self.bookings.len();
        if let Some(booked) = self.gateways.get_mut(gateway) {
            booked.insert((start, booking));
        }
        let uplink = &mut self.uplinks[number - 1];
        uplink.is_answered = true;
        self.sessions[session - 1].downlinks += u32::from(!uplink.is_join);
        Ok(Success::Down { airtime, band, booking, start: start as u64 })
    }

    fn down_done(&mut self, number: u64, sent: bool) -> Result<Success, Refusal> {
        let place = usize::try_from(number).ok().and_then(|n| n.checked_sub(1)).ok_or(Refusal::NoBooking)?;
        let booking = self.bookings.get_mut(place).ok_or(Refusal::NoBooking)?;
        ensure(booking.state == State::Booked, Refusal::Done)?;
        booking.state = if sent { State::Sent } else { State::Dropped };
        self.uplinks[booking.uplink - 1].is_answered = sent;
        Ok(Success::Plain)
    }
}

/// From the end of an uplink to the beginning of its receive window.
pub fn delay(is_join: bool, window: u8) -> u64 {
    let first = if is_join { 5_000_000 } else { 1_000_000 };
    first + if window == 2 { 1_000_000 } else { 0 }
}
