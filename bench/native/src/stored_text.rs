//! The text that a message has in a file: compact JSON, the members in byte order of their names.

use crate::message::{Head, Message, Report, Role};
use crate::radio::BANDS;
use serde::Serialize;
use std::fmt::Write;

#[derive(Serialize)]
#[serde(untagged)]
enum Verdict {
    Mic(&'static str),
    Counter(Option<u32>),
}

/// The fields are in byte order of the members' names.
#[derive(Default, Serialize)]
#[serde(rename_all = "PascalCase")]
struct Members<'a> {
    #[serde(skip_serializing_if = "Option::is_none")]
    band: Option<&'static str>,
    #[serde(skip_serializing_if = "Option::is_none")]
    booking: Option<u64>,
    #[serde(skip_serializing_if = "Option::is_none")]
    data_rate: Option<u8>,
    #[serde(rename = "DevEUI", skip_serializing_if = "Option::is_none")]
    dev_eui: Option<String>,
    #[serde(skip_serializing_if = "Option::is_none")]
    freq: Option<u32>,
    #[serde(skip_serializing_if = "Option::is_none")]
    gateway: Option<&'a str>,
    #[serde(rename = "JoinEUI", skip_serializing_if = "Option::is_none")]
    join_eui: Option<String>,
    #[serde(skip_serializing_if = "Option::is_none")]
    limit: Option<u64>,
    message_type: &'a str,
    #[serde(skip_serializing_if = "Option::is_none")]
    owner: Option<&'a str>,
    #[serde(rename = "PHYPayload", skip_serializing_if = "Option::is_none")]
    phy_payload: Option<String>,
    protocol_version: &'static str,
    #[serde(rename = "ReceiverID")]
    receiver_id: &'a str,
    #[serde(skip_serializing_if = "Option::is_none")]
    role: Option<&'static str>,
    #[serde(skip_serializing_if = "Option::is_none")]
    sender: Option<&'a str>,
    #[serde(rename = "SenderID")]
    sender_id: &'a str,
    #[serde(skip_serializing_if = "Option::is_none")]
    sent: Option<bool>,
    #[serde(skip_serializing_if = "Option::is_none")]
    time: Option<u64>,
    #[serde(rename = "TransactionID")]
    transaction_id: u32,
    #[serde(skip_serializing_if = "Option::is_none")]
    uplink: Option<u64>,
    #[serde(skip_serializing_if = "Option::is_none")]
    verdict: Option<Verdict>,
    #[serde(skip_serializing_if = "Option::is_none")]
    window: Option<u8>,
}

impl<'a> Members<'a> {
    fn report(&mut self, report: &'a Report, verdict: Verdict) {
        self.gateway = Some(&report.gateway);
        self.time = Some(report.time);
        (self.freq, self.data_rate) = (Some(report.channel.freq), Some(report.channel.data_rate));
        self.phy_payload = Some(hex(&report.payload));
        self.verdict = Some(verdict);
    }
}

fn hex(octets: &[u8]) -> String {
    let mut text = String::with_capacity(2 * octets.len());
    for octet in octets {
        write!(text, "{octet:02x}").expect("a String takes every text");
    }
    text
}

fn eui(number: u64) -> Option<String> {
    Some(format!("{number:016x}"))
}

/// The text of a message for the desk of this name. Equal messages have the same one.
pub fn write(desk: &str, head: &Head<'_>, message: &Message) -> Vec<u8> {
    let mut members = Members {
        message_type: head.message_type,
        protocol_version: "1.0",
        receiver_id: desk,
        sender_id: head.sender,
        transaction_id: head.transaction,
        ..Members::default()
    };
    match message {
        Message::SenderAdd { sender, role } => {
            members.sender = Some(sender);
            members.role = Some(if *role == Role::Operator { "operator" } else { "radio" });
        }
        Message::OwnerAdd { owner } => members.owner = Some(owner),
        Message::GatewayAdd { gateway } => members.gateway = Some(gateway),
        Message::DeviceAdd { dev_eui, join_eui, owner } => {
            (members.dev_eui, members.join_eui) = (eui(*dev_eui), eui(*join_eui));
            members.owner = Some(owner);
        }
        Message::DeviceMove { dev_eui, owner } => {
            members.dev_eui = eui(*dev_eui);
            members.owner = Some(owner);
        }
        Message::JoinHeard { report, is_good } => {
            members.report(report, Verdict::Mic(if *is_good { "Good" } else { "Bad" }));
        }
        Message::FrameHeard { report, counter } => members.report(report, Verdict::Counter(*counter)),
        Message::DownBook { uplink, gateway, window, payload } => {
            (members.uplink, members.window) = (Some(*uplink), Some(*window));
            members.gateway = Some(gateway);
            members.phy_payload = Some(hex(payload));
        }
        Message::DownDone { booking, sent } => (members.booking, members.sent) = (Some(*booking), Some(*sent)),
        Message::LimitSet { gateway, band, limit } => {
            (members.band, members.limit) = (Some(BANDS[*band].name), Some(*limit));
            members.gateway = Some(gateway);
        }
    }
    serde_json::to_vec(&members).expect("texts and numbers are always written")
}
