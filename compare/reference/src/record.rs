//! What a frame says, as plain numbers. A record may hold numbers that no
//! frame can carry; only writing it tells whether it is valid.

/// The three preambles of a frame.
pub const PREAMBLES: [u8; 3] = [0x53, 0x9A, 0xC6];

/// The categories that are read and written.
#[derive(Clone, Copy, PartialEq, Eq, Debug)]
pub enum Category {
    Hypocenter,
    Intensity,
    Nankai,
    Tsunami,
    Volcano,
    AshFall,
    Flood,
}

impl Category {
    pub const ALL: [Category; 7] = [
        Category::Hypocenter,
        Category::Intensity,
        Category::Nankai,
        Category::Tsunami,
        Category::Volcano,
        Category::AshFall,
        Category::Flood,
    ];

    /// The number that stands in Dc.
    pub fn code(self) -> u64 {
        match self {
            Category::Hypocenter => 2,
            Category::Intensity => 3,
            Category::Nankai => 4,
            Category::Tsunami => 5,
            Category::Volcano => 8,
            Category::AshFall => 9,
            Category::Flood => 11,
        }
    }

    /// The category of a Dc, if it is one of these.
    pub fn of_code(code: u64) -> Option<Category> {
        Category::ALL.into_iter().find(|category| category.code() == code)
    }
}

/// Day, hour and minute of an earthquake or of volcanic activity. In category 8
/// they may be the codes that say together that the time is unknown.
#[derive(Clone, Copy, PartialEq, Eq, Debug, Default)]
pub struct Time {
    pub day: u8,
    pub hour: u8,
    pub minute: u8,
}

/// A latitude or a longitude. Side 0 is north or east, 1 is south or west.
#[derive(Clone, Copy, PartialEq, Eq, Debug, Default)]
pub struct Angle {
    pub side: u8,
    pub degrees: u8,
    pub minutes: u8,
    pub seconds: u8,
}

/// The fields of category 2.
#[derive(Clone, Copy, PartialEq, Eq, Debug, Default)]
pub struct Hypocenter {
    pub notifications: [u16; 3],
    pub time: Time,
    pub depth: u16,
    pub magnitude: u8,
    pub epicenter: u16,
    pub latitude: Angle,
    pub longitude: Angle,
}

/// The fields of the record's category, slots and text apart.
#[derive(Clone, Copy, PartialEq, Eq, Debug, Default)]
pub enum Body {
    #[default]
    Nothing,
    Hypocenter(Hypocenter),
    Intensity(Time),
    Nankai {
        serial: u8,
        page: u8,
        total: u8,
    },
    Tsunami {
        notifications: [u16; 3],
        warning: u8,
    },
    Volcano {
        ambiguity: u8,
        time: Time,
        warning: u8,
        volcano: u16,
    },
    AshFall {
        time: Time,
        warning: u8,
        volcano: u16,
    },
    /// All that category 11 says stands in its slots.
    Flood,
}

impl Body {
    pub fn category(&self) -> Option<Category> {
        match self {
            Body::Nothing => None,
            Body::Hypocenter(_) => Some(Category::Hypocenter),
            Body::Intensity(_) => Some(Category::Intensity),
            Body::Nankai { .. } => Some(Category::Nankai),
            Body::Tsunami { .. } => Some(Category::Tsunami),
            Body::Volcano { .. } => Some(Category::Volcano),
            Body::AshFall { .. } => Some(Category::AshFall),
            Body::Flood => Some(Category::Flood),
        }
    }
}

/// One place with its strength and when. In category 3 the strength is the
/// intensity and the place is the prefecture; in categories 5 and 11, where a slot
/// is an area, they are the height code or the warning level, and the forecast
/// region. A part that a category does not have stays zero.
#[derive(Clone, Copy, PartialEq, Eq, Debug, Default)]
pub struct Slot {
    pub day: u8,
    pub hour: u8,
    pub minute: u8,
    pub strength: u8,
    pub place: u64,
}

/// The parts of a slot by name. Only category 5 has all of them.
#[derive(Clone, Copy, PartialEq, Eq, Debug)]
pub enum Part {
    Day,
    Hour,
    Minute,
    Strength,
    Place,
}

impl Part {
    pub const ALL: [Part; 5] = [Part::Day, Part::Hour, Part::Minute, Part::Strength, Part::Place];
}

impl Slot {
    pub fn part(&self, part: Part) -> u64 {
        match part {
            Part::Day => self.day.into(),
            Part::Hour => self.hour.into(),
            Part::Minute => self.minute.into(),
            Part::Strength => self.strength.into(),
            Part::Place => self.place,
        }
    }

    /// A value above what the part can hold becomes the most that it can hold.
    pub fn set_part(&mut self, part: Part, value: u64) {
        let byte = value.min(u8::MAX.into()) as u8;
        match part {
            Part::Day => self.day = byte,
            Part::Hour => self.hour = byte,
            Part::Minute => self.minute = byte,
            Part::Strength => self.strength = byte,
            Part::Place => self.place = value,
        }
    }
}

#[derive(Clone, Copy, PartialEq, Eq, Debug, Default)]
pub struct Record {
    pub preamble: u8,
    pub reserved: u8,
    pub rc: u8,
    pub month: u8,
    pub day: u8,
    pub hour: u8,
    pub minute: u8,
    pub it: u8,
    /// Spare1 and Spare2, kept so that they can be written back. A category that
    /// has no Spare2 has 0 there.
    pub spares: [u64; 2],
    pub body: Body,
    pub slots: [Slot; 16],
    pub text: [u8; 18],
}

/// The refusals that name a bit.
pub const OUT_OF_RANGE: u8 = 8;
pub const SLOT_AFTER_EMPTY: u8 = 10;

/// Why something was refused: the number from document 01, and the bit, page
/// and mark it names. What a number does not name is 0.
#[derive(Clone, Copy, PartialEq, Eq, Debug, Default)]
pub struct Refusal {
    pub number: u8,
    pub place: u8,
    pub page: u8,
    pub mark: u8,
    /// What was found in the field that is out of range, in the frame, the record
    /// or the name. No other refusal has a value, and 0 may be one.
    pub value: u64,
}

impl Refusal {
    /// A refusal whose row names nothing.
    pub fn plain(number: u8) -> Refusal {
        Refusal { number, ..Refusal::default() }
    }

    /// The field that begins at a bit of the frame must not have this value.
    pub fn out_of_range(bit: usize, value: u64) -> Refusal {
        Refusal { value, ..Refusal::at(OUT_OF_RANGE, bit) }
    }

    /// The slot that begins at a bit of the frame is used after an empty one.
    pub fn slot_after_empty(bit: usize) -> Refusal {
        Refusal::at(SLOT_AFTER_EMPTY, bit)
    }

    /// Every field, spare and slot begins below bit 226, so its bit fits a byte.
    fn at(number: u8, bit: usize) -> Refusal {
        Refusal { number, place: bit as u8, ..Refusal::default() }
    }
}
