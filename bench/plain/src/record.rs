//! The record of one unit: 817 numbers of 8 bytes, low byte first, read and written in place.

use std::slice;

pub const MOST_GENERATORS: usize = 8;
pub const MOST_CONSUMERS: usize = 16;
pub const MOST_KIND: u64 = 3;
pub const MOST_CAPACITY: u64 = 400_000;
pub const MOST_HUNDREDTHS: u64 = 5_000;
pub const MOST_CYCLE: u64 = 12;
pub const MOST_RANK: u64 = 255;
pub const MOST_READING: u64 = 200_000_000;
pub const MOST_MONTH_BLOCKS: u64 = 3_360;
pub const MOST_UNIT_BLOCKS: u64 = 10_000_000;
pub const MOST_SWITCH_MONTH: u64 = 1_200;
pub const DAY_BLOCKS: usize = 96;
pub const CLASSES: usize = 3;

/// One number of a record or an output, as its bytes.
#[derive(Clone, Copy, Default)]
#[repr(transparent)]
pub struct Number([u8; 8]);

impl Number {
    #[inline]
    pub fn get(self) -> u64 {
        u64::from_le_bytes(self.0)
    }

    #[inline]
    pub fn set(&mut self, value: u64) {
        self.0 = value.to_le_bytes();
    }

    #[inline]
    pub fn add(&mut self, value: u64) {
        self.set(self.get() + value);
    }
}

/// Views bytes as numbers; bytes after the last whole number are left out.
pub fn numbers(bytes: &mut [u8]) -> &mut [Number] {
    let count = bytes.len() / size_of::<Number>();
    // SAFETY: a Number is 8 bytes of alignment 1 and any bytes make one.
    unsafe { slice::from_raw_parts_mut(bytes.as_mut_ptr().cast(), count) }
}

pub type PerGenerator = [Number; MOST_GENERATORS];
pub type PerConsumer = [Number; MOST_CONSUMERS];
pub type PerPair = [PerConsumer; MOST_GENERATORS];

#[repr(C)]
pub struct Generator {
    pub kind: Number,
    pub installed: Number,
    pub contracted: Number,
}

impl Generator {
    pub fn is_deemed(&self) -> bool {
        self.kind.get() != 0
    }

    pub fn lower_capacity(&self) -> u64 {
        self.installed.get().min(self.contracted.get())
    }
}

/// The terms of the generator equation: the first is the sum of the others.
#[repr(C)]
pub struct GeneratorTotals {
    pub injected: PerGenerator,
    pub unaccounted: PerGenerator,
    pub loss: PerGenerator,
    pub set_off: PerGenerator,
    pub inadvertent: PerGenerator,
    pub charge: PerGenerator,
    pub drawn: PerGenerator,
    pub lapsed: PerGenerator,
    pub bank: PerGenerator,
    pub pending: PerGenerator,
}

impl GeneratorTotals {
    fn parts(&self) -> [&PerGenerator; 9] {
        [
            &self.unaccounted,
            &self.loss,
            &self.set_off,
            &self.inadvertent,
            &self.charge,
            &self.drawn,
            &self.lapsed,
            &self.bank,
            &self.pending,
        ]
    }
}

/// The terms of the consumer equation: the first is the sum of the others.
#[repr(C)]
pub struct ConsumerTotals {
    pub metered: PerConsumer,
    pub set_off: PerConsumer,
    pub shortfall: PerConsumer,
    pub drawn: PerConsumer,
    pub supplied: PerConsumer,
    pub open: PerConsumer,
}

impl ConsumerTotals {
    fn parts(&self) -> [&PerConsumer; 5] {
        [
            &self.set_off,
            &self.shortfall,
            &self.drawn,
            &self.supplied,
            &self.open,
        ]
    }
}

/// The classes of hours, in the order of the record and of a settlement.
#[derive(Clone, Copy, Debug, PartialEq, Eq)]
pub enum Class {
    OffPeak,
    Normal,
    Peak,
}

impl Class {
    /// The class of the block that comes after so many in its month.
    pub fn of_block_after(month_blocks: u64) -> Class {
        match month_blocks % DAY_BLOCKS as u64 + 1 {
            37..=68 => Class::OffPeak,
            21..=36 | 77..=92 => Class::Peak,
            _ => Class::Normal,
        }
    }
}

/// What is settled by classes of hours, of one class.
#[derive(Default)]
#[repr(C)]
pub struct ClassTotals {
    pub bank: PerGenerator,
    pub pending: PerGenerator,
    pub open: PerConsumer,
}

impl ClassTotals {
    /// All numbers or-ed together: 0 where each is 0.
    fn bits(&self) -> u64 {
        bits(&self.bank) | bits(&self.pending) | bits(&self.open)
    }
}

#[repr(C)]
pub struct Record {
    pub generators: Number,
    pub consumers: Number,
    pub rate: Number,
    pub cycle: Number,
    pub months_gone: Number,
    pub unit_blocks: Number,
    pub month_blocks: Number,
    pub generator: [Generator; MOST_GENERATORS],
    pub link: PerPair,
    pub loss: PerPair,
    pub kw: PerPair,
    pub rank: PerPair,
    pub by_generator: GeneratorTotals,
    pub by_consumer: ConsumerTotals,
    pub switch_month: Number,
    pub closings: Number,
    pub by_class: [ClassTotals; CLASSES],
}

pub const RECORD_BYTES: usize = 6_536;
const _: () = assert!(size_of::<Record>() == RECORD_BYTES && align_of::<Record>() == 1);

impl Record {
    /// Views bytes as a record, or nothing where their length is another one.
    pub fn over(bytes: &mut [u8]) -> Option<&mut Record> {
        if bytes.len() != RECORD_BYTES {
            return None;
        }
        // SAFETY: size and alignment are asserted above and any bytes make a Record.
        Some(unsafe { &mut *bytes.as_mut_ptr().cast() })
    }

    /// Views bytes as a record, or nothing where they are not a sound one.
    pub fn sound_over(bytes: &mut [u8]) -> Option<&mut Record> {
        Record::over(bytes).filter(|record| record.is_sound())
    }

    /// Makes every number 0.
    pub fn clear(&mut self) {
        // SAFETY: a Record of zero bytes is one of zeros.
        *self = unsafe { std::mem::zeroed() };
    }

    /// The numbers of generators and consumers in use.
    pub fn shape(&self) -> (usize, usize) {
        (
            self.generators.get() as usize,
            self.consumers.get() as usize,
        )
    }

    /// Whether the open month is banked by hours: the next closing is the switch month's or a
    /// later one.
    pub fn is_by_hours(&self) -> bool {
        let switch_month = self.switch_month.get();
        switch_month != 0 && self.closings.get() + 1 >= switch_month
    }

    fn is_sound(&self) -> bool {
        if !self.counts_are_sound() {
            return false;
        }
        let (generators, consumers) = self.shape();
        let most_energy = MOST_READING * self.unit_blocks.get();
        let (by_generator, by_consumer) = (&self.by_generator, &self.by_consumer);

        (0..generators).all(|g| self.generator_is_sound(g, consumers))
            && self.generator[generators..].iter().all(|unused| {
                unused.kind.get() | unused.installed.get() | unused.contracted.get() == 0
            })
            && [&self.link, &self.loss, &self.kw, &self.rank]
                .iter()
                .all(|rows| is_zero(rows[generators..].as_flattened()))
            && totals_are_sound(
                &by_generator.injected,
                &by_generator.parts(),
                generators,
                most_energy,
            )
            && totals_are_sound(
                &by_consumer.metered,
                &by_consumer.parts(),
                consumers,
                most_energy,
            )
            && self.classes_are_sound()
    }

    /// The ranges of the numbers that belong to no generator or consumer.
    fn counts_are_sound(&self) -> bool {
        (1..=MOST_GENERATORS as u64).contains(&self.generators.get())
            && (1..=MOST_CONSUMERS as u64).contains(&self.consumers.get())
            && self.rate.get() <= MOST_HUNDREDTHS
            && (1..=MOST_CYCLE).contains(&self.cycle.get())
            && self.months_gone.get() < self.cycle.get()
            && self.unit_blocks.get() <= MOST_UNIT_BLOCKS
            && self.month_blocks.get() <= MOST_MONTH_BLOCKS.min(self.unit_blocks.get())
            && self.switch_month.get() <= MOST_SWITCH_MONTH
            && self.closings.get() <= self.unit_blocks.get() - self.month_blocks.get()
    }

    /// The classes add up to the totals where the month is banked by hours, and are 0 otherwise.
    /// The totals beyond G and C are 0 by then, so that their classes are.
    fn classes_are_sound(&self) -> bool {
        let classes = self.by_class.each_ref();
        if !self.is_by_hours() {
            return classes.iter().fold(0, |all, class| all | class.bits()) == 0;
        }
        self.months_gone.get() == 0
            && are_sums(&self.by_generator.bank, classes.map(|class| &class.bank))
            && are_sums(
                &self.by_generator.pending,
                classes.map(|class| &class.pending),
            )
            && are_sums(&self.by_consumer.open, classes.map(|class| &class.open))
    }

    /// The ranges of one generator in use and of its pairs, and the rules of its schedule.
    fn generator_is_sound(&self, g: usize, consumers: usize) -> bool {
        let generator = &self.generator[g];
        if generator.kind.get() > MOST_KIND
            || generator.installed.get() > MOST_CAPACITY
            || generator.contracted.get() > MOST_CAPACITY
        {
            return false;
        }
        let (link, unused_link) = self.link[g].split_at(consumers);
        let (loss, unused_loss) = self.loss[g].split_at(consumers);
        let (kw, unused_kw) = self.kw[g].split_at(consumers);
        let (rank, unused_rank) = self.rank[g].split_at(consumers);

        let mut scheduled = 0;
        for (((link, loss), kw), rank) in link.iter().zip(loss).zip(kw).zip(rank) {
            let kw = kw.get();
            if link.get() > 1
                || loss.get() > MOST_HUNDREDTHS
                || !(1..=MOST_RANK).contains(&rank.get())
                || kw > link.get() * MOST_CAPACITY
            {
                return false;
            }
            scheduled += kw;
        }
        scheduled <= generator.lower_capacity()
            && [unused_link, unused_loss, unused_kw, unused_rank]
                .into_iter()
                .all(is_zero)
    }
}

fn bits(numbers: &[Number]) -> u64 {
    numbers.iter().fold(0, |bits, number| bits | number.get())
}

fn is_zero(numbers: &[Number]) -> bool {
    bits(numbers) == 0
}

/// Every whole is the sum of its classes. A sound whole is far below 2^62; so is each of its
/// classes then, and three such numbers add up without an overflow.
fn are_sums<const PLACES: usize>(
    whole: &[Number; PLACES],
    classes: [&[Number; PLACES]; CLASSES],
) -> bool {
    let (mut bits, mut differing) = (0, 0);
    for place in 0..PLACES {
        let [off_peak, normal, peak] = classes.map(|class| class[place].get());
        let sum = off_peak.wrapping_add(normal).wrapping_add(peak);
        bits |= off_peak | normal | peak;
        differing |= sum ^ whole[place].get();
    }
    bits < 1 << 62 && differing == 0
}

/// Every whole in use is the sum of its parts and at most `most`; the places beyond are 0.
fn totals_are_sound<const PLACES: usize>(
    whole: &[Number; PLACES],
    parts: &[&[Number; PLACES]],
    used: usize,
    most: u64,
) -> bool {
    is_zero(&whole[used..])
        && parts.iter().all(|part| is_zero(&part[used..]))
        && whole[..used].iter().enumerate().all(|(place, whole)| {
            let sum = parts
                .iter()
                .try_fold(0u64, |sum, part| sum.checked_add(part[place].get()));
            whole.get() <= most && sum == Some(whole.get())
        })
}
