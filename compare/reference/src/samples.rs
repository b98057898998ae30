//! The values of document 004 (training messages of March 2025) in the
//! categories that are read, as records.
//!
//! What document 004 leaves open is filled plainly: the preamble is 53
//! hexadecimal, Reserved and the spares are 0 throughout. Message type and
//! version are not in a record. Rc is 7 and It is 0 in every table. The year is
//! not sent.

use crate::record::{Angle, Body, Hypocenter, Record, Slot, Time};

const PREAMBLE: u8 = 0x53;
const RESERVED: u8 = 0;
const SPARES: [u64; 2] = [0; 2];

/// Rc "training/test" and It "issue", the same in tables 2-1-2 to 2-7-1.
const RC: u8 = 7;
const IT: u8 = 0;

/// Section 1.1: both deliveries fall in March.
const MONTH: u8 = 3;

/// Section 1.1: the two deliveries by day, and the hour (UTC) at which the
/// first scenario of each begins: 13:00 and 10:00 Japanese time.
const DELIVERIES: [(u8, u8); 2] = [(11, 4), (27, 1)];

/// Table 2-3-1, row Te: the whole text of the Nankai bulletin.
pub const NANKAI_TEXT: &str = "南海トラフ沿いのプレート境界で通常とは異なるゆっくりすべりが発生していることが推定されます。この通常とは異なるゆっくりすべりの発生により、南海トラフ地震の想定震源域では、大規模地震の発生可能性が平常時に比べて相対的に高まっていると考えられます。今後の政府や自治体などからの呼びかけ等に応じた防災対応をとってください。";

/// Tables 2-4-1, 2-4-2 and 2-5-1, rows Pl: Aso city, Takamori town and Minamiaso
/// village in Kumamoto.
const ASO: u64 = 4_321_400;
const TAKAMORI: u64 = 4_342_800;
const MINAMIASO: u64 = 4_343_300;

/// Tables 2-4-1, 2-4-2 and 2-5-1, row Vo: Mount Aso.
const MOUNT_ASO: u16 = 503;

/// Tables 2-6-2 and 2-7-1, row Pl_1: the river Kinu in Tochigi and Ibaraki.
const KINU: u64 = 830_303_020_300;

/// Tables 2-1-4, 2-2-1 and 2-3-2, rows Pl: the forecast regions, which are the
/// coast of Ehime on the Uwa Sea, Kochi, that of Oita on the Bungo Channel, and
/// Miyazaki.
const EHIME: u64 = 600;
const KOCHI: u64 = 610;
const OITA: u64 = 751;
const MIYAZAKI: u64 = 760;

/// The same, rows Th: 3 m in every area. Its code is that of table 4.1.2-23 of
/// document 001; table 2-3-2 leaves the code of its first area blank.
const THREE_METRES: u8 = 3;

/// Every sample, in the order of document 004.
pub fn all() -> Vec<Record> {
    let tables = [
        hypocenter(),
        intensity(),
        tsunami_warning(),
        tsunami_update(),
        nankai(),
        tsunami_lifted(),
        volcano(),
        ash_fall_preliminary(),
        ash_fall_detailed(),
        flood_warning(),
        flood_lifted(),
    ];
    tables.concat()
}

/// Section 2.1.2, table 2-1-2: one record for each delivery.
pub fn hypocenter() -> Vec<Record> {
    let issues = [issue(0, 0, 5), issue(1, 0, 5)];
    issues.map(|issue| Record { body: Body::Hypocenter(hyuganada(&issue)), ..issue }).to_vec()
}

/// Section 2.1.3, table 2-1-3: nine prefectures, for each delivery.
pub fn intensity() -> Vec<Record> {
    const PREFECTURES: [(u8, u64); 9] =
        [(4, 44), (4, 45), (3, 39), (3, 43), (2, 35), (2, 38), (2, 40), (2, 41), (2, 46)];
    let mut slots = [Slot::default(); 16];
    for (slot, (strength, place)) in slots.iter_mut().zip(PREFECTURES) {
        *slot = Slot { strength, place, ..Slot::default() };
    }
    let issues = [issue(0, 0, 5), issue(1, 0, 5)];
    let filled = |issue| Record { body: Body::Intensity(same_time(&issue)), slots, ..issue };
    issues.map(filled).to_vec()
}

/// Section 2.1.4, table 2-1-4: three areas, for each delivery.
pub fn tsunami_warning() -> Vec<Record> {
    let body = Body::Tsunami { notifications: [122, 123, 124], warning: 3 };
    let issues = [issue(0, 0, 5), issue(1, 0, 5)];
    issues.map(|issue| tsunami(&issue, body, &[EHIME, KOCHI, MIYAZAKI])).to_vec()
}

/// Section 2.2.1, table 2-2-1: four areas, for each delivery.
pub fn tsunami_update() -> Vec<Record> {
    let body = Body::Tsunami { notifications: [122, 123, 124], warning: 3 };
    let issues = [issue(0, 0, 25), issue(1, 0, 25)];
    issues.map(|issue| tsunami(&issue, body, &[EHIME, KOCHI, OITA, MIYAZAKI])).to_vec()
}

/// Section 2.3.2, table 2-3-2: four areas, for each delivery. Its row Ta speaks
/// of five regions, but rows Pl name four.
pub fn tsunami_lifted() -> Vec<Record> {
    let body = Body::Tsunami { notifications: [103, 0, 0], warning: 2 };
    let issues = [issue(0, 0, 35), issue(1, 0, 35)];
    issues.map(|issue| tsunami(&issue, body, &[EHIME, KOCHI, OITA, MIYAZAKI])).to_vec()
}

/// Section 2.3.1, table 2-3-1: the pages of the bulletin, for each delivery.
/// Page number and total are not printed there; they follow from the text,
/// which goes out in pages of 18 bytes, the last one filled up with zeros.
pub fn nankai() -> Vec<Record> {
    let pages = pages(NANKAI_TEXT);
    let total = pages.len() as u8;
    let mut records = Vec::new();
    for issue in [issue(0, 0, 35), issue(1, 0, 35)] {
        for (page, text) in (1..).zip(pages.iter().copied()) {
            let body = Body::Nankai { serial: 5, page, total };
            records.push(Record { body, text, ..issue });
        }
    }
    records
}

/// Section 2.4.1, table 2-4-1: three places, for each delivery. The time of the
/// eruption has no ambiguity, and the warning code is that of an eruption.
pub fn volcano() -> Vec<Record> {
    let mut slots = [Slot::default(); 16];
    for (slot, place) in slots.iter_mut().zip([ASO, TAKAMORI, MINAMIASO]) {
        *slot = Slot { place, ..Slot::default() };
    }
    let filled = |issue| {
        let time = same_time(&issue);
        let body = Body::Volcano { ambiguity: 0, time, warning: 52, volcano: MOUNT_ASO };
        Record { body, slots, ..issue }
    };
    [issue(0, 1, 10), issue(1, 1, 10)].map(filled).to_vec()
}

/// Section 2.4.2, table 2-4-2: three places, for each delivery.
pub fn ash_fall_preliminary() -> Vec<Record> {
    let places = [(1, 1, ASO), (1, 1, TAKAMORI), (1, 1, MINAMIASO)];
    let issues = [issue(0, 1, 10), issue(1, 1, 10)];
    issues.map(|issue| ash_fall(&issue, 1, &places)).to_vec()
}

/// Section 2.5.1, table 2-5-1: eighteen places in five messages, for each
/// delivery. The same place stands twice in a message, at different hours.
pub fn ash_fall_detailed() -> Vec<Record> {
    const PLACES: [(u8, u8, u64); 18] = [
        (1, 2, ASO),
        (1, 2, TAKAMORI),
        (1, 1, MINAMIASO),
        (2, 1, ASO),
        (2, 1, TAKAMORI),
        (2, 1, MINAMIASO),
        (3, 1, ASO),
        (3, 1, TAKAMORI),
        (3, 1, MINAMIASO),
        (4, 1, ASO),
        (4, 1, TAKAMORI),
        (4, 1, MINAMIASO),
        (5, 1, ASO),
        (5, 1, TAKAMORI),
        (5, 1, MINAMIASO),
        (6, 1, ASO),
        (6, 1, TAKAMORI),
        (6, 1, MINAMIASO),
    ];
    let mut records = Vec::new();
    for issue in [issue(0, 1, 20), issue(1, 1, 20)] {
        records.extend(PLACES.chunks(4).map(|places| ash_fall(&issue, 2, places)));
    }
    records
}

/// Section 2.6.2, table 2-6-2: one area, for each delivery.
pub fn flood_warning() -> Vec<Record> {
    [issue(0, 1, 35), issue(1, 1, 35)].map(|issue| flood(&issue, 2)).to_vec()
}

/// Section 2.7.1, table 2-7-1: the same area, for each delivery.
pub fn flood_lifted() -> Vec<Record> {
    [issue(0, 1, 50), issue(1, 1, 50)].map(|issue| flood(&issue, 1)).to_vec()
}

/// A text cut into pages of 18 bytes, the last one filled up with zeros.
pub fn pages(text: &str) -> Vec<[u8; 18]> {
    let filled = |part: &[u8]| {
        let mut page = [0; 18];
        page[..part.len()].copy_from_slice(part);
        page
    };
    text.as_bytes().chunks(18).map(filled).collect()
}

/// The common fields of a message: the delivery, and hours and minutes after
/// the hour at which that delivery begins.
fn issue(delivery: usize, hours: u8, minute: u8) -> Record {
    let (day, first_hour) = DELIVERIES[delivery];
    Record {
        preamble: PREAMBLE,
        reserved: RESERVED,
        rc: RC,
        month: MONTH,
        day,
        hour: first_hour + hours,
        minute,
        it: IT,
        spares: SPARES,
        ..Record::default()
    }
}

/// Every table gives the time of the event as the time of issue.
fn same_time(issue: &Record) -> Time {
    Time { day: issue.day, hour: issue.hour, minute: issue.minute }
}

/// Table 2-1-2 from row Co_1 on.
fn hyuganada(issue: &Record) -> Hypocenter {
    Hypocenter {
        notifications: [226, 0, 0],
        time: same_time(issue),
        depth: 40,
        magnitude: 64,
        epicenter: 791,
        latitude: Angle { side: 0, degrees: 32, minutes: 42, seconds: 0 },
        longitude: Angle { side: 0, degrees: 132, minutes: 6, seconds: 0 },
    }
}

/// A tsunami message. Row Ta gives one arrival for all areas: the time of issue,
/// which is on the same day.
fn tsunami(issue: &Record, body: Body, regions: &[u64]) -> Record {
    let Time { hour, minute, .. } = same_time(issue);
    let mut slots = [Slot::default(); 16];
    for (slot, &place) in slots.iter_mut().zip(regions) {
        *slot = Slot { day: 0, hour, minute, strength: THREE_METRES, place };
    }
    Record { body, slots, ..*issue }
}

/// An ash fall message with its places as hour, strength and place.
fn ash_fall(issue: &Record, warning: u8, places: &[(u8, u8, u64)]) -> Record {
    let mut slots = [Slot::default(); 16];
    for (slot, &(hour, strength, place)) in slots.iter_mut().zip(places) {
        *slot = Slot { hour, strength, place, ..Slot::default() };
    }
    let body = Body::AshFall { time: same_time(issue), warning, volcano: MOUNT_ASO };
    Record { body, slots, ..*issue }
}

/// A flood message with the river Kinu for its area.
fn flood(issue: &Record, level: u8) -> Record {
    let mut slots = [Slot::default(); 16];
    slots[0] = Slot { strength: level, place: KINU, ..Slot::default() };
    Record { body: Body::Flood, slots, ..*issue }
}
