//! Messages: read from JSON.

use crate::answer::Refusal;
use crate::radio::{Channel, BANDS};
use serde_json::Value;

const LONGEST_TEXT: usize = 65_536;
const INTEGER_LIMIT: u64 = 1 << 53;

#[derive(Clone, Copy, PartialEq)]
pub enum Role {
    Operator,
    Radio,
}

/// What an answer repeats of its request.
pub struct Head<'v> {
    pub sender: &'v str,
    pub transaction: u32,
    pub message_type: &'v str,
}

#[derive(PartialEq)]
pub struct Report {
    pub gateway: String,
    pub time: u64,
    pub channel: Channel,
    pub payload: Vec<u8>,
}

#[derive(PartialEq)]
pub enum Message {
    SenderAdd { sender: String, role: Role },
    OwnerAdd { owner: String },
    GatewayAdd { gateway: String },
    DeviceAdd { dev_eui: u64, join_eui: u64, owner: String },
    DeviceMove { dev_eui: u64, owner: String },
    JoinHeard { report: Report, is_good: bool },
    FrameHeard { report: Report, counter: Option<u32> },
    DownBook { uplink: u64, gateway: String, window: u8, payload: Vec<u8> },
    DownDone { booking: u64, sent: bool },
    LimitSet { gateway: String, band: usize, limit: u64 },
}

impl Message {
    /// Whether only an operator may send it.
    pub fn is_registration(&self) -> bool {
        !matches!(
            self,
            Message::JoinHeard { .. } | Message::FrameHeard { .. } | Message::DownBook { .. } | Message::DownDone { .. }
        )
    }
}

/// The JSON value of a text, if it is one and not too long.
pub fn parse(text: &[u8]) -> Option<Value> {
    if text.len() > LONGEST_TEXT {
        return None;
    }
    serde_json::from_str(std::str::from_utf8(text).ok()?).ok()
}

/// The head, and the message or why it is none for the receiver. `None` if there is no head.
pub fn read<'v>(value: &'v Value, receiver: &str) -> Option<(Head<'v>, Result<Message, Refusal>)> {
    let (head, version, to) = outer_members(value)?;
    let message = if version != "1.0" {
        Err(Refusal::InvalidProtocolVersion)
    } else if to != receiver {
        Err(Refusal::UnknownReceiver)
    } else {
        match body(head.message_type, value) {
            Some(message) => message.ok_or(Refusal::BadBody),
            None => Err(Refusal::UnknownType),
        }
    };
    Some((head, message))
}

/// The head, ProtocolVersion and ReceiverID.
fn outer_members(value: &Value) -> Option<(Head<'_>, &str, &str)> {
    let version = value.get("ProtocolVersion")?.as_str()?;
    let receiver = name(value, "ReceiverID")?;
    let message_type = value.get("MessageType")?.as_str()?;
    if !(1..=32).contains(&message_type.len()) || !message_type.bytes().all(|c| c.is_ascii_alphabetic()) {
        return None;
    }
    let head = Head {
        sender: name(value, "SenderID")?,
        transaction: number(value, "TransactionID")?,
        message_type,
    };
    Some((head, version, receiver))
}

/// The message of the type; `Some(None)` if a member is not in its form, `None` if there is no such type.
fn body(message_type: &str, value: &Value) -> Option<Option<Message>> {
    Some(match message_type {
        "SenderAdd" => sender_add(value),
        "OwnerAdd" => owned_name(value, "Owner").map(|owner| Message::OwnerAdd { owner }),
        "GatewayAdd" => owned_name(value, "Gateway").map(|gateway| Message::GatewayAdd { gateway }),
        "DeviceAdd" => device_add(value),
        "DeviceMove" => device_move(value),
        "JoinHeard" => join_heard(value),
        "FrameHeard" => frame_heard(value),
        "DownBook" => down_book(value),
        "DownDone" => down_done(value),
        "LimitSet" => limit_set(value),
        _ => return None,
    })
}

fn sender_add(value: &Value) -> Option<Message> {
    let role = match value.get("Role")?.as_str()? {
        "operator" => Role::Operator,
        "radio" => Role::Radio,
        _ => return None,
    };
    Some(Message::SenderAdd { sender: owned_name(value, "Sender")?, role })
}

fn device_add(value: &Value) -> Option<Message> {
    let (dev_eui, join_eui) = (eui(value, "DevEUI")?, eui(value, "JoinEUI")?);
    Some(Message::DeviceAdd { dev_eui, join_eui, owner: owned_name(value, "Owner")? })
}

fn device_move(value: &Value) -> Option<Message> {
    Some(Message::DeviceMove { dev_eui: eui(value, "DevEUI")?, owner: owned_name(value, "Owner")? })
}

fn join_heard(value: &Value) -> Option<Message> {
    let is_good = match value.get("Verdict")?.as_str()? {
        "Good" => true,
        "Bad" => false,
        _ => return None,
    };
    Some(Message::JoinHeard { report: report(value)?, is_good })
}

fn frame_heard(value: &Value) -> Option<Message> {
    let counter = match value.get("Verdict") {
        None | Some(Value::Null) => None,
        Some(_) => Some(number(value, "Verdict")?),
    };
    Some(Message::FrameHeard { report: report(value)?, counter })
}

fn down_book(value: &Value) -> Option<Message> {
    let window = value.get("Window")?.as_u64()?;
    if window != 1 && window != 2 {
        return None;
    }
    Some(Message::DownBook {
        uplink: integer(value, "Uplink")?,
        gateway: owned_name(value, "Gateway")?,
        window: window as u8,
        payload: octets(value, "PHYPayload")?,
    })
}

fn down_done(value: &Value) -> Option<Message> {
    Some(Message::DownDone { booking: integer(value, "Booking")?, sent: value.get("Sent")?.as_bool()? })
}

fn limit_set(value: &Value) -> Option<Message> {
    let band_name = value.get("Band")?.as_str()?;
    let band = BANDS.iter().position(|band| band.name == band_name)?;
    let limit = value.get("Limit")?.as_u64()?;
    if limit > BANDS[band].limit {
        return None;
    }
    Some(Message::LimitSet { gateway: owned_name(value, "Gateway")?, band, limit })
}

fn report(value: &Value) -> Option<Report> {
    let data_rate = value.get("DataRate")?.as_u64()?;
    if data_rate > 7 {
        return None;
    }
    Some(Report {
        gateway: owned_name(value, "Gateway")?,
        time: integer(value, "Time")?,
        channel: Channel { freq: number(value, "Freq")?, data_rate: data_rate as u8 },
        payload: octets(value, "PHYPayload")?,
    })
}

// ---- members

fn name<'v>(value: &'v Value, member: &str) -> Option<&'v str> {
    let text = value.get(member)?.as_str()?;
    let is_name = (1..=32).contains(&text.len())
        && text.bytes().all(|c| c.is_ascii_alphanumeric() || matches!(c, b'-' | b'_' | b'.'));
    is_name.then_some(text)
}

fn owned_name(value: &Value, member: &str) -> Option<String> {
    name(value, member).map(str::to_owned)
}

fn number(value: &Value, member: &str) -> Option<u32> {
    u32::try_from(value.get(member)?.as_u64()?).ok()
}

fn integer(value: &Value, member: &str) -> Option<u64> {
    value.get(member)?.as_u64().filter(|&n| n < INTEGER_LIMIT)
}

fn eui(value: &Value, member: &str) -> Option<u64> {
    let digits = hex_digits(value, member)?;
    if digits.len() != 16 {
        return None;
    }
    digits.bytes().try_fold(0, |n, c| Some(n << 4 | u64::from(hex_digit(c)?)))
}

fn octets(value: &Value, member: &str) -> Option<Vec<u8>> {
    let digits = hex_digits(value, member)?.as_bytes();
    if digits.len() > 510 || digits.len() % 2 != 0 {
        return None;
    }
    digits.chunks_exact(2).map(|pair| Some(hex_digit(pair[0])? << 4 | hex_digit(pair[1])?)).collect()
}

fn hex_digits<'v>(value: &'v Value, member: &str) -> Option<&'v str> {
    let text = value.get(member)?.as_str()?;
    Some(text.strip_prefix("0x").unwrap_or(text))
}

fn hex_digit(c: u8) -> Option<u8> {
    char::from(c).to_digit(16).map(|digit| digit as u8)
}
