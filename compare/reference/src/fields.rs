//! The tables of document 001 as rows: each field with its first bit, its
//! width and the values it may take.
//!
//! Some fields have a code besides, which says that no value is given. It does
//! not speak for its field alone: the fields of one table, or of one slot, that
//! have a code form a group, and either all of them have their codes or none.

use crate::record::{Category, Part};

/// Pairs of lowest and highest value, both allowed.
pub type Allowed = &'static [(u64, u64)];

#[derive(Clone, Copy, Debug)]
pub struct Field {
    pub first: usize,
    pub width: usize,
    pub allowed: Allowed,
    /// The value that stands here where the whole group has its codes.
    pub group_code: Option<u64>,
}

impl Field {
    /// Whether a value is allowed for itself, codes of a group apart. It may be
    /// wider than any field, as in a record it can be.
    pub fn allows(&self, value: u64) -> bool {
        self.allowed.iter().any(|&(lowest, highest)| lowest <= value && value <= highest)
    }
}

const fn field(first: usize, width: usize, allowed: Allowed) -> Field {
    Field { first, width, allowed, group_code: None }
}

const fn grouped(first: usize, width: usize, allowed: Allowed, code: u64) -> Field {
    Field { first, width, allowed, group_code: Some(code) }
}

const DAY: Allowed = &[(1, 31)];
const HOUR: Allowed = &[(0, 23)];
const MINUTE: Allowed = &[(0, 59)];
const SIDE: Allowed = &[(0, 1)];
const SIXTIETH: Allowed = &[(0, 59)];
const NOTIFICATION: Allowed = &[(0, 0), (101, 500)];
const VOLCANO_NAME: Allowed = &[(101, 4000)];
const LOCAL_GOVERNMENT: Allowed = &[(110_000, 4_799_999)];

/// The bit of Reserved: any six bits in a frame, at most 63 in a record.
pub const RESERVED: Field = field(220, 6, &[(0, 63)]);

/// Where the page number and the page total begin: the total is bounded by
/// the number, which no single row can say.
pub const PAGE_NUMBER_FIRST: usize = 201;
pub const PAGE_TOTAL_FIRST: usize = 207;

/// Tsunami reports are of maximum priority or regular, the others are of
/// priority, volcano and flood also regular; all of them may be for training.
const RC: Field = field(14, 3, &[(2, 2), (7, 7)]);
const RC_OF_TSUNAMI: Field = field(14, 3, &[(1, 1), (3, 3), (7, 7)]);
const RC_OR_REGULAR: Field = field(14, 3, &[(2, 3), (7, 7)]);

/// The time of issue, the same in every category.
const ISSUE_TIME: [Field; 4] =
    [field(21, 4, &[(1, 12)]), field(25, 5, DAY), field(30, 5, HOUR), field(35, 6, MINUTE)];

/// Volcano, ash fall and flood know a correction, which is 1.
const IT: Field = field(41, 2, &[(0, 0), (2, 2)]);
const IT_OR_CORRECTION: Field = field(41, 2, &[(0, 2)]);

/// Table 4.1.2-12.
const HYPOCENTER: [Field; 17] = [
    field(53, 9, NOTIFICATION),
    field(62, 9, NOTIFICATION),
    field(71, 9, NOTIFICATION),
    field(80, 5, DAY),
    field(85, 5, HOUR),
    field(90, 6, MINUTE),
    field(96, 9, &[(0, 501), (511, 511)]),
    field(105, 7, &[(1, 101), (126, 127)]),
    field(112, 10, &[(11, 1000)]),
    field(122, 1, SIDE),
    field(123, 7, &[(0, 89)]),
    field(130, 6, SIXTIETH),
    field(136, 6, SIXTIETH),
    field(142, 1, SIDE),
    field(143, 8, &[(0, 179)]),
    field(151, 6, SIXTIETH),
    field(157, 6, SIXTIETH),
];

/// Table 4.1.2-14, without its slots.
const INTENSITY: [Field; 3] = [field(53, 5, DAY), field(58, 5, HOUR), field(63, 6, MINUTE)];

/// Table 4.1.2-14, one slot: intensity and prefecture.
const INTENSITY_PARTS: [(Part, Field); 2] =
    [(Part::Strength, field(0, 3, &[(1, 7)])), (Part::Place, field(3, 6, &[(1, 47)]))];

/// Table 4.1.2-18, without its text, which may be any bytes.
const NANKAI: [Field; 3] = [
    field(53, 4, &[(1, 15)]),
    field(PAGE_NUMBER_FIRST, 6, &[(1, 63)]),
    field(PAGE_TOTAL_FIRST, 6, &[(1, 63)]),
];

/// Table 4.1.2-21, without its areas. It prints the first and the third
/// notification; the bits up to the version add up with a second one between.
const TSUNAMI: [Field; 4] = [
    field(53, 9, NOTIFICATION),
    field(62, 9, NOTIFICATION),
    field(71, 9, NOTIFICATION),
    field(80, 4, &[(1, 15)]),
];

/// Table 4.1.2-21, one area: day, hour and minute of the arrival, height and
/// region. Hour and minute have their codes where the wave has arrived. The day
/// says this day or the next and has no code.
const TSUNAMI_PARTS: [(Part, Field); 5] = [
    (Part::Day, field(0, 1, &[(0, 1)])),
    (Part::Hour, grouped(1, 5, HOUR, 31)),
    (Part::Minute, grouped(6, 6, MINUTE, 63)),
    (Part::Strength, field(12, 4, &[(1, 15)])),
    (Part::Place, field(16, 10, &[(100, 1000)])),
];

/// Table 4.1.2-30, without its places: ambiguity, activity time, warning code and
/// volcano. The time has its codes where it is unknown. The ambiguity has none: it
/// may have any value beside any time.
const VOLCANO: [Field; 6] = [
    field(50, 3, &[(0, 7)]),
    grouped(53, 5, DAY, 0),
    grouped(58, 5, HOUR, 31),
    grouped(63, 6, MINUTE, 63),
    field(69, 7, &[(1, 127)]),
    field(76, 12, VOLCANO_NAME),
];

/// Table 4.1.2-30, one place.
const VOLCANO_PARTS: [(Part, Field); 1] = [(Part::Place, field(0, 23, LOCAL_GOVERNMENT))];

/// Table 4.1.2-35, without its slots.
const ASH_FALL: [Field; 5] = [
    field(53, 5, DAY),
    field(58, 5, HOUR),
    field(63, 6, MINUTE),
    field(69, 2, &[(1, 2)]),
    field(71, 12, VOLCANO_NAME),
];

/// Table 4.1.2-35, one slot: hour, strength and place.
const ASH_FALL_PARTS: [(Part, Field); 3] = [
    (Part::Hour, field(0, 3, &[(1, 6)])),
    (Part::Strength, field(3, 3, &[(1, 7)])),
    (Part::Place, field(6, 23, LOCAL_GOVERNMENT)),
];

/// Table 4.1.2-43, one area: warning level and region, which needs 40 bits.
const FLOOD_PARTS: [(Part, Field); 2] = [
    (Part::Strength, field(0, 4, &[(1, 15)])),
    (Part::Place, field(4, 40, &[(10_175_000_100, 899_999_999_999)])),
];

/// Every field of a category outside its slots, spares included, by rising
/// first bit.
pub fn fields(category: Category) -> Vec<Field> {
    let (rc, it, own): (Field, Field, &[Field]) = match category {
        Category::Hypocenter => (RC, IT, &HYPOCENTER),
        Category::Intensity => (RC, IT, &INTENSITY),
        Category::Nankai => (RC, IT, &NANKAI),
        Category::Tsunami => (RC_OF_TSUNAMI, IT, &TSUNAMI),
        Category::Volcano => (RC_OR_REGULAR, IT_OR_CORRECTION, &VOLCANO),
        Category::AshFall => (RC, IT_OR_CORRECTION, &ASH_FALL),
        Category::Flood => (RC_OR_REGULAR, IT_OR_CORRECTION, &[]),
    };
    let mut all = [&[rc], &ISSUE_TIME[..], &[it], own, &spares(category)].concat();
    all.sort_by_key(|field| field.first);
    all
}

/// How the slots of a category lie; the bits of the parts are counted from
/// the first bit of their slot.
#[derive(Clone, Copy, Debug)]
pub struct SlotLayout {
    pub first: usize,
    pub width: usize,
    pub count: usize,
    parts: &'static [(Part, Field)],
}

impl SlotLayout {
    /// The first bit of a slot, slots counted from 0.
    pub fn slot_first(&self, slot: usize) -> usize {
        self.first + slot * self.width
    }

    /// The parts of a slot as fields of the frame.
    pub fn parts(&self, slot: usize) -> Vec<Field> {
        self.named_parts(slot).into_iter().map(|(_, field)| field).collect()
    }

    /// The same, each with its name.
    pub fn named_parts(&self, slot: usize) -> Vec<(Part, Field)> {
        let start = self.slot_first(slot);
        let moved = |field: Field| Field { first: start + field.first, ..field };
        self.parts.iter().map(|&(part, field)| (part, moved(field))).collect()
    }

    /// Whether the slots have a part at all.
    pub fn has(&self, part: Part) -> bool {
        self.parts.iter().any(|&(own, _)| own == part)
    }
}

/// The slots of a category; categories 2 and 4 have none.
pub fn slot_layout(category: Category) -> SlotLayout {
    match category {
        Category::Hypocenter | Category::Nankai => {
            SlotLayout { first: 0, width: 0, count: 0, parts: &[] }
        }
        Category::Intensity => {
            SlotLayout { first: 69, width: 9, count: 16, parts: &INTENSITY_PARTS }
        }
        Category::Tsunami => SlotLayout { first: 84, width: 26, count: 5, parts: &TSUNAMI_PARTS },
        Category::Volcano => SlotLayout { first: 88, width: 23, count: 5, parts: &VOLCANO_PARTS },
        Category::AshFall => SlotLayout { first: 83, width: 29, count: 4, parts: &ASH_FALL_PARTS },
        Category::Flood => SlotLayout { first: 53, width: 44, count: 3, parts: &FLOOD_PARTS },
    }
}

/// Every field of a category, and behind them the parts of its slots.
pub fn fields_and_parts(category: Category) -> Vec<Field> {
    let layout = slot_layout(category);
    let mut all = fields(category);
    all.extend((0..layout.count).flat_map(|slot| layout.parts(slot)));
    all
}

/// The groups of a category: the fields of its table that have a code, and those
/// of each of its slots.
pub fn groups(category: Category) -> Vec<Vec<Field>> {
    let layout = slot_layout(category);
    let slots = (0..layout.count).map(|slot| layout.parts(slot));
    let tables = std::iter::once(fields(category)).chain(slots);
    let with_code = |mut table: Vec<Field>| {
        table.retain(|field| field.group_code.is_some());
        table
    };
    tables.map(with_code).filter(|group| !group.is_empty()).collect()
}

/// Spare1, which the ambiguity of category 8 leaves with 7 bits, and Spare2 where
/// the category has one: the areas of category 5 reach up to the version and leave
/// no room for it. What a spare will once say is not known, so it may have every
/// value that its bits hold.
pub fn spares(category: Category) -> Vec<Field> {
    let spare1 = match category {
        Category::Volcano => field(43, 7, &[(0, 127)]),
        _ => field(43, 10, &[(0, 1023)]),
    };
    let spare2 = match category {
        Category::Hypocenter => Some(field(163, 51, &[(0, (1 << 51) - 1)])),
        Category::Intensity | Category::Nankai => Some(field(213, 1, &[(0, 1)])),
        Category::Tsunami => None,
        Category::Volcano => Some(field(203, 11, &[(0, 2047)])),
        Category::AshFall => Some(field(199, 15, &[(0, 32_767)])),
        Category::Flood => Some(field(185, 29, &[(0, (1 << 29) - 1)])),
    };
    std::iter::once(spare1).chain(spare2).collect()
}
