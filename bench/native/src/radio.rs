//! The radio rules: sub-bands, data rates, time on air, frames, sliding hours. Times are in microseconds.

pub const HOUR: i64 = 3_600_000_000;
/// No transmission takes longer.
pub const LONGEST_AIRTIME: i64 = 3_000_000;
const FSK: usize = 7;

struct DataRate {
    spreading: i64,
    symbol: u32,
    greatest_payload: usize,
    half_bandwidth: u32,
}

const fn lora(spreading: i64, symbol: u32, greatest_payload: usize, half_bandwidth: u32) -> DataRate {
    DataRate { spreading, symbol, greatest_payload, half_bandwidth }
}

/// RP002-1.0.4, EU863-870. The last one is FSK, which has no symbols.
const DATA_RATES: [DataRate; 8] = [
    lora(12, 32_768, 64, 62_500),
    lora(11, 16_384, 64, 62_500),
    lora(10, 8_192, 64, 62_500),
    lora(9, 4_096, 128, 62_500),
    lora(8, 2_048, 255, 62_500),
    lora(7, 1_024, 255, 62_500),
    lora(7, 512, 255, 125_000),
    lora(0, 0, 255, 62_500),
];

pub struct Band {
    pub name: &'static str,
    from: u32,
    to: u32,
    /// The most time on air within any hour.
    pub limit: u64,
}

pub static BANDS: [Band; 6] = [
    Band { name: "B1", from: 863_000_000, to: 865_000_000, limit: 3_600_000 },
    Band { name: "B2", from: 865_000_000, to: 868_000_000, limit: 36_000_000 },
    Band { name: "B3", from: 868_000_000, to: 868_600_000, limit: 36_000_000 },
    Band { name: "B4", from: 868_700_000, to: 869_200_000, limit: 3_600_000 },
    Band { name: "B5", from: 869_400_000, to: 869_650_000, limit: 360_000_000 },
    Band { name: "B6", from: 869_700_000, to: 870_000_000, limit: 36_000_000 },
];

/// A frequency in hertz and a data rate from 0 to 7.
#[derive(Clone, Copy, PartialEq)]
pub struct Channel {
    pub freq: u32,
    pub data_rate: u8,
}

pub const RX2: Channel = Channel { freq: 869_525_000, data_rate: 0 };

impl Channel {
    /// The place in `BANDS` of the sub-band in which a transmission lies with its whole bandwidth.
    pub fn band(self) -> Option<usize> {
        let half = DATA_RATES[self.data_rate as usize].half_bandwidth;
        let (low, high) = (self.freq.checked_sub(half)?, self.freq.checked_add(half)?);
        BANDS.iter().position(|band| band.from <= low && high <= band.to)
    }

    /// Whether a PHYPayload of this length may be sent.
    pub fn takes(self, octets: usize) -> bool {
        octets <= DATA_RATES[self.data_rate as usize].greatest_payload
    }

    /// Time on air (Semtech AN1200.13). Uplinks have a payload CRC, downlinks have none; FSK always has one.
    pub fn airtime(self, octets: usize, is_up: bool) -> u32 {
        let data_rate = self.data_rate as usize;
        if data_rate == FSK {
            return 160 * (octets as u32 + 11);
        }
        let DataRate { spreading, symbol, .. } = DATA_RATES[data_rate];
        let block = 4 * (spreading - if data_rate <= 1 { 2 } else { 0 });
        let bits = 8 * octets as i64 - 4 * spreading + 28 + if is_up { 16 } else { 0 };
        let blocks = if bits > 0 { (bits + block - 1) / block } else { 0 };
        (81 + 20 * blocks as u32) * (symbol / 4)
    }
}

// ---- frames (LoRaWAN L2 1.0.4, section 4)

pub struct JoinRequest {
    pub join_eui: u64,
    pub dev_eui: u64,
    pub dev_nonce: u16,
}

pub struct DataFrame {
    pub dev_addr: u32,
    pub fcnt: u16,
}

/// The frame type, if Major is 0.
fn frame_type(octets: &[u8]) -> Option<u8> {
    let mhdr = *octets.first()?;
    (mhdr & 3 == 0).then_some(mhdr >> 5)
}

fn little_endian(octets: &[u8]) -> u64 {
    octets.iter().rev().fold(0, |n, &octet| n << 8 | u64::from(octet))
}

pub fn join_request(octets: &[u8]) -> Option<JoinRequest> {
    if octets.len() != 23 || frame_type(octets)? != 0 {
        return None;
    }
    Some(JoinRequest {
        join_eui: little_endian(&octets[1..9]),
        dev_eui: little_endian(&octets[9..17]),
        dev_nonce: little_endian(&octets[17..19]) as u16,
    })
}

pub fn is_join_accept(octets: &[u8]) -> bool {
    matches!(octets.len(), 17 | 33) && frame_type(octets) == Some(1)
}

/// A data frame, unconfirmed or confirmed, up or down.
pub fn data_frame(octets: &[u8], is_up: bool) -> Option<DataFrame> {
    let types = if is_up { [2, 4] } else { [3, 5] };
    if octets.len() < 12 || !types.contains(&frame_type(octets)?) {
        return None;
    }
    let fopts = usize::from(octets[5] & 15);
    (octets.len() >= 12 + fopts).then(|| DataFrame {
        dev_addr: little_endian(&octets[1..5]) as u32,
        fcnt: little_endian(&octets[6..8]) as u16,
    })
}

/// The 32-bit counter that the 16 bits of a frame give after the last one.
pub fn counter_after(last: Option<u32>, fcnt: u16) -> Option<u32> {
    let Some(last) = last else {
        return Some(u32::from(fcnt));
    };
    let next = u64::from(last) + 1;
    u32::try_from(next + u64::from(fcnt.wrapping_sub(next as u16))).ok()
}

// ---- sliding hours

/// The greatest use of any hour, of transmissions that share no microsecond.
pub fn peak(mut spans: Vec<(i64, i64)>) -> u64 {
    spans.sort_unstable();
    let mut before = Vec::with_capacity(spans.len() + 1);
    before.push(0);
    for (start, end) in &spans {
        before.push(before[before.len() - 1] + (end - start));
    }
    let used_before = |time: i64| {
        let begun = spans.partition_point(|&(start, _)| start < time);
        let tail = if begun > 0 { (spans[begun - 1].1 - time).max(0) } else { 0 };
        before[begun] - tail
    };
    let begins = spans.iter().flat_map(|&(start, end)| [start, end - HOUR]);
    begins.map(|begin| used_before(begin + HOUR) - used_before(begin)).max().unwrap_or(0) as u64
}
