//! Answers: written as compact JSON, the members in byte order of their names.

use crate::message::Head;
use crate::radio::BANDS;
use serde::Serialize;

#[derive(Clone, Copy)]
pub enum Refusal {
    Malformed,
    InvalidProtocolVersion,
    UnknownReceiver,
    UnknownSender,
    TransactionReused,
    WrongRole,
    BadBody,
    UnknownType,
    Exists,
    UnknownOwner,
    UnknownGateway,
    UnknownDevEui,
    UnknownDevAddr,
    BadFrame,
    OutOfBand,
    MicFailed,
    JoinEui,
    Nonce,
    Addresses,
    Replayed,
    Late,
    Gap,
    SessionEnded,
    NoUplink,
    DownCounter,
    Collision,
    Duty,
    Answered,
    NoBooking,
    Done,
    Time,
}

impl Refusal {
    /// ResultCode and Description.
    fn result(self) -> (&'static str, &'static str) {
        match self {
            Refusal::Malformed => ("Other", "malformed"),
            Refusal::InvalidProtocolVersion => ("InvalidProtocolVersion", ""),
            Refusal::UnknownReceiver => ("UnknownReceiver", ""),
            Refusal::UnknownSender => ("UnknownSender", ""),
            Refusal::TransactionReused => ("Other", "transaction"),
            Refusal::WrongRole => ("Other", "role"),
            Refusal::BadBody => ("Other", "body"),
            Refusal::UnknownType => ("Other", "type"),
            Refusal::Exists => ("Other", "exists"),
            Refusal::UnknownOwner => ("Other", "owner"),
            Refusal::UnknownGateway => ("Other", "gateway"),
            Refusal::UnknownDevEui => ("UnknownDevEUI", ""),
            Refusal::UnknownDevAddr => ("UnknownDevAddr", ""),
            Refusal::BadFrame => ("Other", "frame"),
            Refusal::OutOfBand => ("Other", "band"),
            Refusal::MicFailed => ("MICFailed", ""),
            Refusal::JoinEui => ("JoinReqFailed", "joineui"),
            Refusal::Nonce => ("JoinReqFailed", "nonce"),
            Refusal::Addresses => ("Other", "addresses"),
            Refusal::Replayed => ("Other", "replayed"),
            Refusal::Late => ("Other", "late"),
            Refusal::Gap => ("Other", "gap"),
            Refusal::SessionEnded => ("Other", "session"),
            Refusal::NoUplink => ("Other", "uplink"),
            Refusal::DownCounter => ("Other", "fcntdown"),
            Refusal::Collision => ("XmitFailed", "collision"),
            Refusal::Duty => ("XmitFailed", "duty"),
            Refusal::Answered => ("XmitFailed", "answered"),
            Refusal::NoBooking => ("Other", "booking"),
            Refusal::Done => ("Other", "done"),
            Refusal::Time => ("Other", "time"),
        }
    }
}

pub enum Success {
    Plain,
    Join { airtime: u32, band: usize, is_copy: bool, dev_addr: u32, uplink: usize },
    Frame { airtime: u32, band: usize, is_copy: bool, counter: u32, dev_eui: u64, uplink: usize },
    Down { airtime: u32, band: usize, booking: usize, start: u64 },
}

#[derive(Serialize)]
#[serde(rename_all = "PascalCase")]
struct ResultMember {
    description: &'static str,
    result_code: &'static str,
}

/// The fields are in byte order of the members' names.
#[derive(Default, Serialize)]
#[serde(rename_all = "PascalCase")]
struct Members<'a> {
    #[serde(skip_serializing_if = "Option::is_none")]
    airtime: Option<u32>,
    #[serde(skip_serializing_if = "Option::is_none")]
    band: Option<&'static str>,
    #[serde(skip_serializing_if = "Option::is_none")]
    booking: Option<usize>,
    #[serde(skip_serializing_if = "Option::is_none")]
    copy: Option<bool>,
    #[serde(skip_serializing_if = "Option::is_none")]
    counter: Option<u32>,
    #[serde(skip_serializing_if = "Option::is_none")]
    dev_addr: Option<String>,
    #[serde(rename = "DevEUI", skip_serializing_if = "Option::is_none")]
    dev_eui: Option<String>,
    #[serde(skip_serializing_if = "Option::is_none")]
    message_type: Option<String>,
    protocol_version: &'static str,
    #[serde(rename = "ReceiverID", skip_serializing_if = "Option::is_none")]
    receiver_id: Option<&'a str>,
    result: Option<ResultMember>,
    #[serde(rename = "SenderID")]
    sender_id: &'a str,
    #[serde(skip_serializing_if = "Option::is_none")]
    start: Option<u64>,
    #[serde(rename = "TransactionID", skip_serializing_if = "Option::is_none")]
    transaction_id: Option<u32>,
    #[serde(skip_serializing_if = "Option::is_none")]
    uplink: Option<usize>,
}

/// The answer of the desk with this name. A text without a head gets one without the request's members.
pub fn write(desk: &str, head: Option<&Head<'_>>, outcome: &Result<Success, Refusal>) -> Vec<u8> {
    let (result_code, description) = match outcome {
        Ok(_) => ("Success", ""),
        Err(refusal) => refusal.result(),
    };
    let mut members = Members {
        protocol_version: "1.0",
        result: Some(ResultMember { description, result_code }),
        sender_id: desk,
        ..Members::default()
    };
    if let Some(head) = head {
        members.message_type = Some(format!("{}Ans", head.message_type));
        members.receiver_id = Some(head.sender);
        members.transaction_id = Some(head.transaction);
    }
    match *outcome {
        Ok(Success::Join { airtime, band, is_copy, dev_addr, uplink }) => {
            (members.airtime, members.band) = (Some(airtime), Some(BANDS[band].name));
            (members.copy, members.uplink) = (Some(is_copy), Some(uplink));
            members.dev_addr = Some(format!("{dev_addr:08x}"));
        }
        Ok(Success::Frame { airtime, band, is_copy, counter, dev_eui, uplink }) => {
            (members.airtime, members.band) = (Some(airtime), Some(BANDS[band].name));
            (members.copy, members.uplink) = (Some(is_copy), Some(uplink));
            (members.counter, members.dev_eui) = (Some(counter), Some(format!("{dev_eui:016x}")));
        }
        Ok(Success::Down { airtime, band, booking, start }) => {
            (members.airtime, members.band) = (Some(airtime), Some(BANDS[band].name));
            (members.booking, members.start) = (Some(booking), Some(start));
        }
        Ok(Success::Plain) | Err(_) => {}
    }
    serde_json::to_vec(&members).expect("texts and numbers are always written")
}
