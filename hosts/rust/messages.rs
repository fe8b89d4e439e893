//! The messages of an aircraft, from its address, squawk, altitude, callsign, position and velocity: Mode S messages with their
//! address parity, squawks and altitudes of Mode A/C.
use crate::exact::sin_cos;
use crate::more1090_generator::{TIS_B, class, parity};
use crate::shell::MODE_AC_DATA;
use std::f64::consts::PI;

/// What an aircraft says of itself. What is not there, no message of it can carry.
#[derive(Clone, Default)]
pub struct Aircraft {
    pub address: Option<u32>,
    /// Four octal digits, as the Mode A/C data of a draw has them (SPECIFICATION 7.7).
    pub squawk: Option<u16>,
    /// Whether Mode A replies have the special position identification pulse.
    pub spi: bool,
    /// Feet.
    pub altitude: Option<f64>,
    /// Eight characters of letters, digits and blanks.
    pub callsign: Option<[u8; 8]>,
    /// Degrees north and east.
    pub position: Option<(f64, f64)>,
    /// Knots, and degrees clockwise from north.
    pub velocity: Option<(f64, f64)>,
    /// Feet a minute.
    pub climb: f64,
    /// Feet of the height by satellites above the altitude by pressure.
    pub gnss_above: Option<f64>,
    /// What a register of it holds, which DF 16, 20 and 21 carry; else DF 20 and 21 carry the callsign's.
    pub register: Option<u64>,
    /// The interrogator that its all-call replies answer, as the overlay of SPECIFICATION 7.10.
    pub overlay: Option<u8>,
}

/// A kind of reply that an aircraft sends.
#[derive(Clone, Copy, PartialEq, Eq)]
pub enum Format {
    Df0,
    Df4,
    Df5,
    Df11,
    AllCall,
    Df16,
    Df20,
    Df21,
    Identification,
    Position,
    Velocity,
    ModeA,
    ModeC,
}

/// The formats by the names that a scenario gives them.
pub const FORMATS: [(&str, Format); 13] = [
    ("df0", Format::Df0),
    ("df4", Format::Df4),
    ("df5", Format::Df5),
    ("df11", Format::Df11),
    ("all-call", Format::AllCall),
    ("df16", Format::Df16),
    ("df20", Format::Df20),
    ("df21", Format::Df21),
    ("identification", Format::Identification),
    ("position", Format::Position),
    ("velocity", Format::Velocity),
    ("mode-a", Format::ModeA),
    ("mode-c", Format::ModeC),
];

/// Fields of a message in order, each its bits and its value, as bytes. The bits are a multiple of eight.
fn packed(fields: &[(u32, u64)]) -> Vec<u8> {
    let bits: u32 = fields.iter().map(|f| f.0).sum();
    let all = fields.iter().fold(0u128, |all, (bits, value)| all << bits | u128::from(*value));
    all.to_be_bytes()[16 - bits as usize / 8..].to_vec()
}

/// The message with its parity behind it, by exclusive or with an address or an interrogator.
fn with_parity(mut bytes: Vec<u8>, overlay: u32) -> Vec<u8> {
    bytes.extend(&(parity(&bytes) ^ overlay).to_be_bytes()[1..]);
    bytes
}

/// Bit n of the digits' bits, from 0, in the order of SPECIFICATION 7.7: C1 A1 C2 A2 C4 A4 B1 D1 B2 D2 B4 D4.
fn digit_bit(data: u16, n: usize) -> u64 {
    const SHIFTS: [u16; 12] = [3, 9, 4, 10, 5, 11, 6, 0, 7, 1, 8, 2];
    u64::from(data >> SHIFTS[n] & 1)
}

/// The 13 bits of an identity or of an altitude by the digits: a 0 stands in their middle.
fn code_of_digits(data: u16) -> u64 {
    let half = |from: usize| (from..from + 6).fold(0, |code, n| code << 1 | digit_bit(data, n));
    half(0) << 7 | half(6)
}

const LOWEST_ALTITUDE: f64 = -1000.0;
pub const ALTITUDES: std::ops::RangeInclusive<f64> = LOWEST_ALTITUDE..=126_700.0;

/// An altitude as Mode C digits: Gillham's code, in steps of 100 feet.
pub fn gillham(feet: f64) -> u16 {
    const BELOW_CODE: f64 = 1250.0;
    let hundreds = ((feet + BELOW_CODE) / 100.0).floor() as u16;
    let (fives, step) = (hundreds / 5, hundreds % 5 + 1);
    // Every other five counts down, so that one bit changes from each step to the next; and 7 stands for 5.
    let step = if fives % 2 == 1 { 6 - step } else { step };
    let step = if step == 5 { 7 } else { step };
    let gray = |x: u16| x ^ x >> 1;
    let (fives, step) = (gray(fives), gray(step));
    // From its highest bit: D2 D4 A1 A2 A4 B1 B2 B4, and C1 C2 C4.
    let digit = |bits: u16| (bits >> 2 & 1) | (bits & 2) | (bits << 2 & 4);
    512 * digit(fives >> 3) + 64 * digit(fives) + 8 * digit(step) + (fives >> 6 & 2) + (fives >> 4 & 4)
}

/// The 13 bits of an altitude: steps of 25 feet, or Gillham's code where they do not reach.
fn altitude_code(feet: f64) -> u64 {
    const HIGHEST_BY_25: f64 = 50_175.0;
    if feet > HIGHEST_BY_25 {
        return code_of_digits(gillham(feet));
    }
    let n = ((feet - LOWEST_ALTITUDE) / 25.0 + 0.5).floor() as u64;
    const BY_25: u64 = 16;
    (n >> 5) << 7 | (n >> 4 & 1) << 5 | BY_25 | n & 15
}

/// The same without the bit in the middle, which says feet or metres.
fn altitude_code_of_12(feet: f64) -> u64 {
    let code = altitude_code(feet);
    code >> 7 << 6 | code & 63
}

/// Eight characters in six bits each.
fn callsign_bits(callsign: &[u8; 8]) -> u64 {
    callsign.iter().fold(0, |bits, c| bits << 6 | u64::from(c & 63))
}

/// The latitudes at which a circle of latitude has one zone of longitude less, from 59.
#[rustfmt::skip]
const ZONE_LATITUDES: [f64; 58] = [
    10.47047130, 14.82817437, 18.18626357, 21.02939493, 23.54504487, 25.82924707, 27.93898710, 29.91135686,
    31.77209708, 33.53993436, 35.22899598, 36.85025108, 38.41241892, 39.92256684, 41.38651832, 42.80914012,
    44.19454951, 45.54626723, 46.86733252, 48.16039128, 49.42776439, 50.67150166, 51.89342469, 53.09516153,
    54.27817472, 55.44378444, 56.59318756, 57.72747354, 58.84763776, 59.95459277, 61.04917774, 62.13216659,
    63.20427479, 64.26616523, 65.31845310, 66.36171008, 67.39646774, 68.42322022, 69.44242631, 70.45451075,
    71.45986473, 72.45884545, 73.45177442, 74.43893416, 75.42056257, 76.39684391, 77.36789461, 78.33374083,
    79.29428225, 80.24923213, 81.19801349, 82.13956981, 83.07199445, 83.99173563, 84.89166191, 85.75541621,
    86.53536998, 87.00000000,
];

/// Zones of longitude at a latitude.
fn zones(latitude: f64) -> u64 {
    59 - ZONE_LATITUDES.iter().filter(|&&at| latitude.abs() >= at).count() as u64
}

/// A position in compact position reporting: 17 bits each of latitude and longitude, in an even or an odd frame.
fn compact_position(latitude: f64, longitude: f64, odd: bool) -> (u64, u64) {
    const STEPS: f64 = 131_072.0;
    let within = |x: f64, zone: f64| (STEPS * x.rem_euclid(zone) / zone + 0.5).floor();
    let zone = 360.0 / (60.0 - f64::from(odd));
    let y = within(latitude, zone);
    let coded_latitude = zone * (y / STEPS + (latitude / zone).floor());
    let around = zones(coded_latitude).saturating_sub(u64::from(odd)).max(1);
    let x = within(longitude, 360.0 / around as f64);
    (y as u64 % STEPS as u64, x as u64 % STEPS as u64)
}

/// The number of the register that holds the callsign, in its first eight bits.
const CALLSIGN_REGISTER: u64 = 0x20;
const MOST_KNOTS: f64 = 1021.0;
const MOST_CLIMB: f64 = 32_640.0;

/// A part of a velocity: its sign, and its size in steps with 0 for no information.
fn signed(value: f64, step: f64) -> (u64, u64) {
    (u64::from(value < 0.0), 1 + (value.abs() / step + 0.5).floor() as u64)
}

/// Knots north and east.
fn north_and_east((speed, track): (f64, f64)) -> (f64, f64) {
    let (sin, cos) = sin_cos(track * PI / 180.0);
    (speed * cos, speed * sin)
}

impl Aircraft {
    /// Where it is after some seconds.
    pub fn after(&self, seconds: f64) -> Aircraft {
        let mut moved = self.clone();
        moved.altitude = self.altitude.map(|a| (a + self.climb * seconds / 60.0).clamp(*ALTITUDES.start(), *ALTITUDES.end()));
        if let (Some((latitude, longitude)), Some(velocity)) = (self.position, self.velocity) {
            // A knot is a minute of latitude an hour.
            let (north, east) = north_and_east(velocity);
            let degrees = seconds / 3600.0 / 60.0;
            let around = sin_cos(latitude * PI / 180.0).1;
            moved.position = Some((latitude + north * degrees, longitude + east * degrees / around));
        }
        moved
    }

    /// What is missing or out of range for a format; none where a message of it can be made.
    pub fn lacks(&self, format: Format) -> Option<&'static str> {
        let mode_ac = matches!(format, Format::ModeA | Format::ModeC);
        let without_altitude = self.altitude.is_none().then_some("altitude");
        let missing = match format {
            Format::Df0 | Format::Df4 | Format::Df16 | Format::Df20 | Format::ModeC => without_altitude,
            Format::Df5 | Format::Df21 | Format::ModeA => self.squawk.is_none().then_some("squawk"),
            Format::Identification => self.callsign.is_none().then_some("callsign"),
            Format::Position => without_altitude.or(self.position.is_none().then_some("latitude and longitude")),
            Format::Velocity => self.velocity.is_none().then_some("speed"),
            Format::AllCall => self.overlay.is_none().then_some("ii or si"),
            Format::Df11 => None,
        };
        missing.or((self.address.is_none() && !mode_ac && format != Format::AllCall).then_some("address"))
    }

    /// The bytes of its message of a format that it lacks nothing for, Mode A/C high byte first; positions in an odd frame or an
    /// even one.
    pub fn message(&self, format: Format, odd: bool) -> Vec<u8> {
        let address = self.address.unwrap_or_default();
        let height = altitude_code(self.altitude.unwrap_or_default());
        let identity = code_of_digits(self.squawk.unwrap_or_default());
        // Downlink format, three bits, 13 bits of no request or report, and the code.
        let head = |df: u64, code: u64| [(5, df), (3, 0), (11, 0), (13, code)];
        let callsign = self.callsign.as_ref().map(|callsign| CALLSIGN_REGISTER << 48 | callsign_bits(callsign));
        let long = |df: u64, code: u64, register: Option<u64>| {
            with_parity(packed(&[&head(df, code)[..], &[(56, register.unwrap_or(0))]].concat()), address)
        };
        match format {
            Format::Df0 => with_parity(packed(&head(0, height)), address),
            Format::Df4 => with_parity(packed(&head(4, height)), address),
            Format::Df5 => with_parity(packed(&head(5, identity)), address),
            Format::Df11 => with_parity(packed(&[(5, 11), (3, CAPABILITY), (24, address.into())]), 0),
            // The generator's all-call replies have the address 0 (SPECIFICATION 7.3).
            Format::AllCall => {
                with_parity(packed(&[(5, 11), (3, CAPABILITY), (24, 0)]), self.overlay.unwrap_or_default().into())
            }
            Format::Df16 => long(16, height, self.register),
            Format::Df20 => long(20, height, self.register.or(callsign)),
            Format::Df21 => long(21, identity, self.register.or(callsign)),
            Format::Identification => self.squitter(self.identification()),
            Format::Position => self.squitter(self.airborne_position(odd)),
            Format::Velocity => self.squitter(self.airborne_velocity()),
            Format::ModeA => mode_ac(self.squawk.unwrap_or_default(), self.spi),
            Format::ModeC => mode_ac(gillham(self.altitude.unwrap_or_default()), false),
        }
    }

    /// An extended squitter of DF 17 with these 56 bits.
    fn squitter(&self, fields: Vec<(u32, u64)>) -> Vec<u8> {
        let head = [(5, 17), (3, CAPABILITY), (24, self.address.unwrap_or_default().into())];
        with_parity(packed(&[&head[..], &fields].concat()), 0)
    }

    fn identification(&self) -> Vec<(u32, u64)> {
        const TYPE: u64 = 4;
        vec![(5, TYPE), (3, 0), (48, callsign_bits(&self.callsign.unwrap_or([b' '; 8])))]
    }

    fn airborne_position(&self, odd: bool) -> Vec<(u32, u64)> {
        const TYPE: u64 = 11;
        let (latitude, longitude) = self.position.unwrap_or_default();
        let (y, x) = compact_position(latitude, longitude, odd);
        let height = altitude_code_of_12(self.altitude.unwrap_or_default());
        vec![(5, TYPE), (3, 0), (12, height), (1, 0), (1, odd.into()), (17, y), (17, x)]
    }

    fn airborne_velocity(&self) -> Vec<(u32, u64)> {
        const TYPE: u64 = 19;
        const OVER_GROUND: u64 = 1;
        const INSTRUMENT_FLIGHT: u64 = 1;
        let (north, east) = north_and_east(self.velocity.unwrap_or_default());
        let (west, across) = signed(east, 1.0);
        let (south, along) = signed(north, 1.0);
        let (down, climb) = signed(self.climb, 64.0);
        let (below, above) = self.gnss_above.map_or((0, 0), |feet| signed(feet, 25.0));
        vec![
            (5, TYPE), (3, OVER_GROUND), (1, 0), (1, INSTRUMENT_FLIGHT), (3, 0), (1, west), (10, across), (1, south), (10, along),
            (1, 0), (1, down), (9, climb), (2, 0), (1, below), (7, above),
        ]
    }
}

/// Capability of level 2 or above, airborne.
const CAPABILITY: u64 = 5;

/// Mode A/C data and SPI, high byte first.
fn mode_ac(data: u16, spi: bool) -> Vec<u8> {
    (data | u16::from(spi) << 12).to_be_bytes().to_vec()
}

/// Why a number of an aircraft is out of range, by the name of its field.
pub fn out_of_range(name: &str, value: f64) -> Option<&'static str> {
    let (fine, why) = match name {
        "altitude" => (ALTITUDES.contains(&value), "is not from -1000 to 126700 feet"),
        "latitude" => ((-90.0..=90.0).contains(&value), "is not from -90 to 90 degrees"),
        "longitude" => ((-180.0..=180.0).contains(&value), "is not from -180 to 180 degrees"),
        "speed" => ((0.0..=MOST_KNOTS).contains(&value), "is not from 0 to 1021 knots"),
        "track" => ((-360.0..=360.0).contains(&value), "is not from -360 to 360 degrees"),
        "climb" => (value.abs() <= MOST_CLIMB, "is not from -32640 to 32640 feet a minute"),
        "gnss-above" => (value.abs() <= 3137.0, "is not from -3137 to 3137 feet"),
        _ => (true, ""),
    };
    (!fine).then_some(why)
}

/// The formats of each type, the capabilities, and the controls of DF 18, as a draw picks from them (SPECIFICATION 7.2).
const TYPE_FORMATS: [&[u8]; 6] = [&[17, 18], &[11], &[0, 4, 5], &[11], &[16, 20, 21, 24, 25, 26, 27, 28, 29, 30, 31], &[19]];
const CAPABILITIES: &[u8] = &[0, 4, 5, 6, 7];
const CONTROLS: &[u8] = &[0, 2, 3, 4, 5, 6];
pub const MODE_AC: u8 = 6;

/// What a draw says of its message.
#[derive(Default)]
pub struct Picks {
    format: u8,
    capability: u8,
    message: [u8; 14],
    data: u16,
    spi: u8,
}

impl Picks {
    /// The end of a draw, from its format pick on, with an overlay.
    pub fn bytes(&self, overlay: u8) -> Vec<u8> {
        let head = [self.format, self.capability, overlay];
        [&head[..], &self.message, &self.data.to_le_bytes(), &[self.spi]].concat()
    }
}

/// The index of x in a list that a draw picks from.
fn pick(list: &[u8], x: u8, what: &str) -> Result<u8, String> {
    let found = list.iter().position(|y| *y == x);
    found.map(|k| k as u8).ok_or_else(|| format!("the type has no {what} {x}"))
}

/// The picks of a message of a type: its bytes, Mode A/C high byte first.
pub fn picks(kind: u8, bytes: &[u8]) -> Result<Picks, String> {
    let mut all = Picks::default();
    let wanted = match kind {
        MODE_AC => 2,
        0 | 4 | 5 => 14,
        _ => 7,
    };
    if bytes.len() != wanted {
        return Err(format!("the type has {wanted} bytes, and not {}", bytes.len()));
    }
    if kind == MODE_AC {
        let word = u16::from_be_bytes([bytes[0], bytes[1]]);
        (all.data, all.spi) = (word & MODE_AC_DATA, (word >> 12) as u8);
        return Ok(all);
    }
    let (format, low) = (bytes[0] >> 3, bytes[0] & 7);
    all.format = pick(TYPE_FORMATS[usize::from(kind)], format, "format")?;
    all.capability = match (kind, format) {
        (0, 18) => pick(CONTROLS, low, "control")?,
        (0 | 1 | 3, _) => pick(CAPABILITIES, low, "capability")?,
        _ => 0,
    };
    all.message[..wanted].copy_from_slice(bytes);
    Ok(all)
}

/// The type of message bytes, Mode A/C high byte first; the picks with which the generator makes just these; and the overlay.
pub fn picks_of_message(bytes: &[u8]) -> Result<(u8, Picks, u8), String> {
    const NO_OVERLAY: u8 = 1;
    if bytes.len() == 2 {
        return Ok((MODE_AC, picks(MODE_AC, bytes)?, NO_OVERLAY));
    }
    let kind = match class(bytes) {
        Some(TIS_B) => 0,
        Some(kind) => kind,
        None => return Err("it has no class: a message has 2, 7 or 14 bytes and a format of its length".into()),
    };
    let all = parity(bytes);
    let overlay = match kind {
        0 if all != 0 => return Err("its parity is not 0, and the generator makes it so".into()),
        3 if bytes[1..4] != [0; 3] => return Err("it is an all-call reply, and the generator's have the address 0".into()),
        3 => u8::try_from(all).ok().filter(|o| *o < 128).ok_or("it is an all-call reply, and its overlay is above 127")?,
        _ => NO_OVERLAY,
    };
    Ok((kind, picks(kind, bytes)?, overlay))
}
