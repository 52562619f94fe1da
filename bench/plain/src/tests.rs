use crate::engine::{self, Refusal, Terms, MISSING};
use crate::record::{
    numbers, Class, ClassTotals, Number, Record, CLASSES, DAY_BLOCKS, MOST_MONTH_BLOCKS,
    MOST_UNIT_BLOCKS, RECORD_BYTES,
};
use std::ptr;

/// The record of before the bank by hours.
const RECORD_BYTES_BEFORE_HOURS: usize = 5_752;

fn bytes(values: &[u32]) -> Vec<u8> {
    values
        .iter()
        .flat_map(|value| value.to_le_bytes())
        .collect()
}

fn values(bytes: &mut [u8]) -> Vec<u64> {
    numbers(bytes).iter().map(|number| number.get()).collect()
}

/// The output of a block, list by list.
#[derive(Debug, PartialEq)]
struct Block {
    loss: Vec<u64>,
    set_off: Vec<u64>,
    underdrawn: Vec<u64>,
    shortfall: Vec<u64>,
    unaccounted: Vec<u64>,
    remainder: Vec<u64>,
}

/// The output of a closing, list by list.
#[derive(Debug, PartialEq)]
struct Closing {
    drawn: Vec<u64>,
    charge: Vec<u64>,
    lapsed: Vec<u64>,
    bank: Vec<u64>,
    open: Vec<u64>,
    supplied: Vec<u64>,
}

struct Agreement {
    generators: u32,
    consumers: u32,
    rate: u32,
    cycle: u32,
    months_gone: u32,
    switch_month: u32,
    generator_list: Vec<u32>,
    pair_list: Vec<u32>,
}

impl Agreement {
    fn a() -> Agreement {
        Agreement {
            generators: 1,
            consumers: 2,
            rate: 1_000,
            cycle: 2,
            months_gone: 0,
            switch_month: 0,
            generator_list: vec![1, 1_000, 800],
            pair_list: vec![1, 1, 1_000, 500],
        }
    }

    /// Every kind with its capacity and its loss, all linked to one consumer.
    fn to_one_consumer(kinds: &[u32], capacities: &[u32], losses: &[u32]) -> Agreement {
        let capacity_of = kinds.iter().zip(capacities);
        let links = kinds.iter().map(|_| 1);
        Agreement {
            generators: kinds.len() as u32,
            consumers: 1,
            generator_list: capacity_of
                .flat_map(|(kind, kw)| [*kind, *kw, *kw])
                .collect(),
            pair_list: links.chain(losses.iter().copied()).collect(),
            ..Agreement::a()
        }
    }

    /// Wind generators without loss, all linked to all consumers.
    fn by_hours(generators: u32, consumers: u32) -> Agreement {
        let pairs = (generators * consumers) as usize;
        Agreement {
            generators,
            consumers,
            rate: 0,
            switch_month: 1,
            generator_list: [1, 40, 40].repeat(generators as usize),
            pair_list: [vec![1; pairs], vec![0; pairs]].concat(),
            ..Agreement::a()
        }
    }

    fn open_into(&self, record: &mut [u8]) -> Result<(), Refusal> {
        let terms = Terms {
            generators: self.generators,
            consumers: self.consumers,
            rate: self.rate,
            cycle: self.cycle,
            months_gone: self.months_gone,
            switch_month: self.switch_month,
        };
        engine::open(
            &terms,
            &bytes(&self.generator_list),
            &bytes(&self.pair_list),
            record,
        )
    }

    fn opened(&self) -> Unit {
        let mut record = vec![0xee; RECORD_BYTES];
        self.open_into(&mut record).unwrap();
        Unit {
            generators: self.generators as usize,
            consumers: self.consumers as usize,
            record,
        }
    }

    /// The refusal of an opening, which leaves the record's bytes.
    fn refused(&self) -> Refusal {
        let mut record = vec![0xee; RECORD_BYTES];
        let refusal = self.open_into(&mut record).unwrap_err();
        assert!(record.iter().all(|byte| *byte == 0xee));
        refusal
    }
}

#[derive(Clone)]
struct Unit {
    generators: usize,
    consumers: usize,
    record: Vec<u8>,
}

impl Unit {
    fn a() -> Unit {
        Agreement::a().opened().scheduled(&[100, 200], &[1, 1])
    }

    fn scheduled(mut self, kw: &[u32], ranks: &[u32]) -> Unit {
        engine::schedule(&mut self.record, &bytes(kw), &bytes(ranks)).unwrap();
        self
    }

    fn record(&mut self) -> &mut Record {
        Record::over(&mut self.record).unwrap()
    }

    fn block_output(&self) -> Vec<u8> {
        let (g, c) = (self.generators, self.consumers);
        vec![0xee; 8 * (4 * g * c + g + c)]
    }

    fn closing_output(&self) -> Vec<u8> {
        let (g, c) = (self.generators, self.consumers);
        vec![0xee; 8 * (g * c + 3 * g + 2 * c)]
    }

    fn block(&mut self, entry: &[u32], exit: &[u32]) -> Block {
        let mut output = self.block_output();
        engine::block(&mut self.record, &bytes(entry), &bytes(exit), &mut output).unwrap();
        let pairs = self.generators * self.consumers;
        let mut values = values(&mut output).into_iter();
        let mut list = |count| values.by_ref().take(count).collect();
        Block {
            loss: list(pairs),
            set_off: list(pairs),
            underdrawn: list(pairs),
            shortfall: list(pairs),
            unaccounted: list(self.generators),
            remainder: list(self.consumers),
        }
    }

    fn close(&mut self) -> Closing {
        let mut output = self.closing_output();
        engine::close(&mut self.record, &mut output).unwrap();
        let mut values = values(&mut output).into_iter();
        let mut list = |count| values.by_ref().take(count).collect();
        Closing {
            drawn: list(self.generators * self.consumers),
            charge: list(self.generators),
            lapsed: list(self.generators),
            bank: list(self.generators),
            open: list(self.consumers),
            supplied: list(self.consumers),
        }
    }

    fn class(&mut self, class: Class) -> &mut ClassTotals {
        &mut self.record().by_class[class as usize]
    }

    /// Enters a block in the next such slot, after blocks of nothing.
    fn block_in(&mut self, slot: u64, entry: &[u32], exit: &[u32]) -> Block {
        while self.record().month_blocks.get() % DAY_BLOCKS as u64 + 1 != slot {
            self.block(&vec![0; self.generators], &vec![0; self.consumers]);
        }
        self.block(entry, exit)
    }

    /// A closing without output is refused with 2 where the record is sound.
    fn is_sound(&mut self) -> bool {
        engine::close(&mut self.record, &mut []) != Err(Refusal::UnsoundRecord)
    }

    /// The refusal of a schedule, which leaves the record's bytes; likewise those below.
    fn refused_schedule(&mut self, kw: &[u32], ranks: &[u32]) -> Refusal {
        let before = self.record.clone();
        let result = engine::schedule(&mut self.record, &bytes(kw), &bytes(ranks));
        assert_eq!(self.record, before);
        result.unwrap_err()
    }

    fn refused_block(&mut self, entry: &[u32], exit: &[u32]) -> Refusal {
        let before = self.record.clone();
        let mut output = self.block_output();
        let result = engine::block(&mut self.record, &bytes(entry), &bytes(exit), &mut output);
        assert_eq!(self.record, before);
        assert!(output.iter().all(|byte| *byte == 0xee));
        result.unwrap_err()
    }

    fn refused_close(&mut self) -> Refusal {
        let before = self.record.clone();
        let mut output = self.closing_output();
        let result = engine::close(&mut self.record, &mut output);
        assert_eq!(self.record, before);
        assert!(output.iter().all(|byte| *byte == 0xee));
        result.unwrap_err()
    }
}

#[test]
fn p1_first_line_of_agreement_a() {
    let block = Unit::a().block(&[70_001], &[20_000, 60_000]);
    assert_eq!(
        block,
        Block {
            loss: vec![2_333, 2_333],
            set_off: vec![20_000, 44_335],
            underdrawn: vec![1_000, 0],
            shortfall: vec![0, 0],
            unaccounted: vec![0],
            remainder: vec![0, 15_665],
        }
    );
    let part = |c: usize| block.loss[c] + block.set_off[c] + block.underdrawn[c];
    assert_eq!((part(0), part(1)), (23_333, 46_668));
}

#[test]
fn p2_and_p3_closings_of_agreement_a() {
    let mut unit = Unit::a();
    unit.block(&[70_001], &[20_000, 60_000]);
    unit.block(&[30_000], &[5_000, 0]);
    assert_eq!(unit.record().by_generator.pending[0].get(), 24_000);
    assert_eq!(
        unit.close(),
        Closing {
            drawn: vec![0, 15_665],
            charge: vec![2_400],
            lapsed: vec![0],
            bank: vec![5_935],
            open: vec![0, 15_665],
            supplied: vec![0, 0],
        }
    );
    let totals = &unit.record().by_generator;
    let equation = [
        totals.injected,
        totals.unaccounted,
        totals.loss,
        totals.set_off,
        totals.inadvertent,
        totals.charge,
        totals.drawn,
        totals.lapsed,
        totals.bank,
        totals.pending,
    ];
    assert_eq!(
        equation.map(|run| run[0].get()),
        [100_001, 0, 6_666, 69_335, 0, 2_400, 15_665, 0, 5_935, 0]
    );

    unit.block(&[0], &[0, 0]);
    let closing = unit.close();
    assert_eq!((closing.lapsed, closing.bank), (vec![5_935], vec![0]));
    assert_eq!(unit.record().months_gone.get(), 0);
}

#[test]
fn p4_shortfall_of_a_scheduled_generator() {
    let unit = Agreement::to_one_consumer(&[0], &[40], &[1_000]).opened();
    let block = unit.scheduled(&[40], &[1]).block(&[7_000], &[10_000]);
    assert_eq!(
        (block.set_off, block.shortfall, block.remainder),
        (vec![6_300], vec![2_700], vec![1_000])
    );
}

#[test]
fn p5_excess_of_a_scheduled_generator() {
    let unit = Agreement::to_one_consumer(&[0], &[40], &[1_000]).opened();
    let mut unit = unit.scheduled(&[40], &[1]);
    let block = unit.block(&[12_000], &[4_000]);
    assert_eq!(block.unaccounted, [2_000]);
    assert_eq!(unit.record().by_generator.inadvertent[0].get(), 5_000);
    assert_eq!(unit.record().by_generator.pending[0].get(), 0);
}

#[test]
fn p6_and_p7_inter_se_order() {
    let unit = Agreement::to_one_consumer(&[0, 0], &[40, 40], &[0, 0]).opened();
    let mut p6 = unit.clone().scheduled(&[40, 40], &[2, 1]);
    assert_eq!(
        p6.block(&[10_000, 10_000], &[12_000]).set_off,
        [2_000, 10_000]
    );
    let mut p7 = unit.scheduled(&[40, 40], &[1, 1]);
    assert_eq!(
        p7.block(&[10_000, 10_000], &[12_000]).set_off,
        [10_000, 2_000]
    );
}

#[test]
fn f2_larger_kw_of_the_pair_first() {
    let unit = Agreement::to_one_consumer(&[0, 0], &[60, 60], &[0, 0]).opened();
    let mut unit = unit.scheduled(&[40, 60], &[1, 1]);
    assert_eq!(
        unit.block(&[10_000, 10_000], &[12_000]).set_off,
        [2_000, 10_000]
    );
    assert_eq!(unit.block(&[4_000, 4_000], &[12_000]).shortfall, [0, 4_000]);
}

#[test]
fn f2_drawing_by_the_schedule_at_the_closing() {
    let unit = Agreement::to_one_consumer(&[1, 1], &[60, 60], &[0, 0]).opened();
    let mut unit = unit.scheduled(&[40, 60], &[1, 1]);
    unit.block(&[10_000, 10_000], &[0]);
    unit.block(&[0, 0], &[12_000]);
    // 9,000 of each are left after the charge.
    assert_eq!(unit.clone().close().drawn, [3_000, 9_000]);
    let mut unit = unit.scheduled(&[60, 40], &[1, 1]);
    assert_eq!(unit.close().drawn, [9_000, 3_000]);
}

#[test]
fn p8_no_kw_scheduled() {
    let block = Agreement::a().opened().block(&[500], &[0, 0]);
    assert_eq!(block.unaccounted, [500]);
}

#[test]
fn p9_loss_below_half_a_watt_hour() {
    let unit = Agreement::to_one_consumer(&[1], &[1], &[1]).opened();
    let block = unit.scheduled(&[1], &[1]).block(&[1], &[1]);
    assert_eq!(
        (block.loss, block.set_off, block.underdrawn),
        (vec![0], vec![1], vec![0])
    );
}

/// What wind loses of an entry reading at a rate.
fn loss(rate: u32, part: u32) -> u64 {
    let unit = Agreement::to_one_consumer(&[1], &[1], &[rate]).opened();
    unit.scheduled(&[1], &[1]).block(&[part], &[0]).loss[0]
}

#[test]
fn f3_loss_to_the_nearest_halves_up() {
    assert_eq!([1, 2, 3, 5].map(|part| loss(5_000, part)), [1, 1, 2, 3]);
    assert_eq!(loss(4_999, 1), 0);
    assert_eq!([4, 5, 14, 15].map(|part| loss(1_000, part)), [0, 1, 1, 2]);
    assert_eq!(loss(5_000, 199_999_999), 100_000_000);
    assert_eq!(loss(1_000, 199_999_994), 19_999_999);
}

#[test]
fn f3_scheduled_at_exit_by_the_same_loss() {
    // 1 kW is 250 Wh: a loss of 0.475 and of 0.5.
    let short = |rate| {
        let unit = Agreement::to_one_consumer(&[0], &[1], &[rate]).opened();
        unit.scheduled(&[1], &[1]).block(&[0], &[300]).shortfall[0]
    };
    assert_eq!((short(19), short(20)), (250, 249));
}

#[test]
fn f3_the_charge_is_still_rounded_up() {
    let agreement = Agreement {
        rate: 1_000,
        ..Agreement::to_one_consumer(&[1], &[1], &[0])
    };
    let mut unit = agreement.opened().scheduled(&[1], &[1]);
    unit.block(&[11], &[0]);
    assert_eq!(unit.close().charge, [2]);
}

#[test]
fn f4_loss_where_the_product_leaves_32_bits() {
    // 858,993 x 5,000 is within 32 bits, 858,994 x 5,000 beyond.
    assert_eq!(
        [858_992, 858_993, 858_994].map(|part| loss(5_000, part)),
        [429_496, 429_497, 429_497]
    );
    assert_eq!(loss(22, 195_225_787), 429_497);
    assert_eq!(
        [9_999, 10_000].map(|part| loss(3_333, part)),
        [3_333, 3_333]
    );
    assert_eq!(loss(4_999, 199_999_999), 99_980_000);
    assert_eq!(loss(5_000, 200_000_000), 100_000_000);
}

#[test]
fn p10_slot_50_of_document_003() {
    let kw = [20_000, 44_000, 320_000];
    let unit = Agreement::to_one_consumer(&[0, 0, 3], &kw, &[0, 0, 1_000]).opened();
    let mut unit = unit.scheduled(&kw, &[1, 2, 3]);
    let block = unit.block(&[5_000_000, 11_000_000, 80_000_000], &[126_000_000]);
    assert_eq!(block.remainder, [38_000_000]);
}

#[test]
fn all_set_off_comes_before_any_shortfall() {
    let unit = Agreement::to_one_consumer(&[0, 1], &[40, 40], &[0, 0]).opened();
    let block = unit
        .scheduled(&[40, 40], &[1, 2])
        .block(&[4_000, 3_000], &[9_000]);
    assert_eq!(block.set_off, [4_000, 3_000]);
    assert_eq!(block.shortfall, [2_000, 0]);
}

#[test]
fn a_bank_is_drawn_only_by_linked_consumers_in_their_order() {
    let agreement = Agreement {
        generators: 2,
        rate: 0,
        generator_list: vec![1, 40, 40, 1, 40, 40],
        pair_list: vec![0, 1, 1, 1, 0, 0, 0, 0],
        ..Agreement::a()
    };
    let mut unit = agreement.opened().scheduled(&[0, 40, 40, 0], &[1, 2, 3, 1]);
    unit.block(&[1_000, 1_000], &[0, 0]);
    let mut unit = unit.scheduled(&[0; 4], &[1, 2, 3, 1]);
    unit.block(&[0, 0], &[700, 1_500]);
    let closing = unit.close();
    assert_eq!(closing.drawn, [0, 1_000, 700, 300]);
    assert_eq!(
        (closing.open, closing.supplied),
        (vec![700, 1_500], vec![0, 200])
    );
}

#[test]
fn refusal_1_unsound_record() {
    let mut zeros = Unit {
        record: vec![0; RECORD_BYTES],
        ..Unit::a()
    };
    assert_eq!(
        zeros.refused_schedule(&[100, 200], &[1, 1]),
        Refusal::UnsoundRecord
    );
    assert_eq!(zeros.refused_block(&[0], &[0, 0]), Refusal::UnsoundRecord);
    assert_eq!(zeros.refused_close(), Refusal::UnsoundRecord);
    for length in [RECORD_BYTES - 1, RECORD_BYTES_BEFORE_HOURS, 0] {
        let mut short = Unit::a();
        short.record.truncate(length);
        assert_eq!(short.refused_block(&[0], &[0, 0]), Refusal::UnsoundRecord);
    }
}

#[test]
fn refusal_1_for_every_number_made_huge() {
    for place in 0..RECORD_BYTES / 8 {
        let mut unit = Unit::a();
        unit.block(&[70_001], &[20_000, 60_000]);
        numbers(&mut unit.record)[place].set(u64::MAX);
        assert_eq!(
            unit.refused_close(),
            Refusal::UnsoundRecord,
            "number {place}"
        );
    }
}

#[test]
fn refusal_1_for_sums_beyond_64_bits() {
    let mut unit = Unit::a();
    let totals = &mut unit.record().by_generator;
    totals.loss[0].set(1 << 63);
    totals.set_off[0].set(1 << 63);
    assert_eq!(unit.refused_block(&[0], &[0, 0]), Refusal::UnsoundRecord);
}

#[test]
fn a_scheduled_generator_may_hold_pending_and_bank() {
    let mut unit = Unit::a();
    unit.block(&[70_001], &[20_000, 60_000]);
    unit.record().generator[0].kind.set(0);
    assert_eq!(unit.close().charge, [100]);
}

#[test]
fn refusal_2_range_of_g_and_c_and_lengths() {
    for (generators, consumers) in [(9, 2), (0, 2), (1, 17), (1, 0), (u32::MAX, u32::MAX)] {
        let agreement = Agreement {
            generators,
            consumers,
            ..Agreement::a()
        };
        assert_eq!(agreement.refused(), Refusal::Length);
    }
    let generator_list = vec![1, 1_000, 800, 0];
    assert_eq!(
        Agreement {
            generator_list,
            ..Agreement::a()
        }
        .refused(),
        Refusal::Length
    );
    let pair_list = vec![1, 1, 1_000];
    assert_eq!(
        Agreement {
            pair_list,
            ..Agreement::a()
        }
        .refused(),
        Refusal::Length
    );
    for length in [RECORD_BYTES + 8, RECORD_BYTES_BEFORE_HOURS, 0] {
        let result = Agreement::a().open_into(&mut vec![0; length]);
        assert_eq!(result, Err(Refusal::Length));
    }

    let mut unit = Unit::a();
    assert_eq!(unit.refused_schedule(&[0], &[1, 1]), Refusal::Length);
    assert_eq!(unit.refused_schedule(&[0, 0], &[1]), Refusal::Length);
    assert_eq!(unit.refused_block(&[], &[0, 0]), Refusal::Length);
    assert_eq!(unit.refused_block(&[0], &[0]), Refusal::Length);
    let mut output = unit.block_output();
    output.push(0);
    let result = engine::block(&mut unit.record, &bytes(&[0]), &bytes(&[0, 0]), &mut output);
    assert_eq!(result, Err(Refusal::Length));
    let result = engine::block(&mut unit.record, &[0; 5], &bytes(&[0, 0]), &mut output[1..]);
    assert_eq!(result, Err(Refusal::Length));
    unit.block(&[0], &[0, 0]);
    assert_eq!(
        engine::close(&mut unit.record, &mut []),
        Err(Refusal::Length)
    );
}

#[test]
fn refusals_3_to_6_and_19_lowest_first() {
    let mut agreement = Agreement::a();
    agreement.switch_month = 1_200;
    agreement.opened();
    agreement.switch_month = 1_201;
    assert_eq!(agreement.refused(), Refusal::SwitchMonth);
    agreement.months_gone = 2;
    assert_eq!(agreement.refused(), Refusal::BankTerm);
    agreement.pair_list[3] = 5_001;
    assert_eq!(agreement.refused(), Refusal::LinkOrLoss);
    agreement.generator_list[2] = 400_001;
    assert_eq!(agreement.refused(), Refusal::Capacity);
    agreement.generator_list[0] = 4;
    assert_eq!(agreement.refused(), Refusal::Kind);

    let pair_list = vec![2, 1, 0, 0];
    assert_eq!(
        Agreement {
            pair_list,
            ..Agreement::a()
        }
        .refused(),
        Refusal::LinkOrLoss
    );
    assert_eq!(
        Agreement {
            rate: 5_001,
            ..Agreement::a()
        }
        .refused(),
        Refusal::BankTerm
    );
    assert_eq!(
        Agreement {
            cycle: 13,
            ..Agreement::a()
        }
        .refused(),
        Refusal::BankTerm
    );
    assert_eq!(
        Agreement {
            cycle: 0,
            ..Agreement::a()
        }
        .refused(),
        Refusal::BankTerm
    );
}

#[test]
fn refusals_7_to_9_lowest_first() {
    let agreement = Agreement {
        pair_list: vec![1, 0, 0, 0],
        ..Agreement::a()
    };
    let mut unit = agreement.opened();
    assert_eq!(
        unit.refused_schedule(&[801, 1], &[0, 1]),
        Refusal::UnlinkedKw
    );
    assert_eq!(
        unit.refused_schedule(&[801, 0], &[0, 1]),
        Refusal::OverCapacity
    );
    assert_eq!(unit.refused_schedule(&[800, 0], &[0, 1]), Refusal::Rank);
    assert_eq!(unit.refused_schedule(&[800, 0], &[1, 256]), Refusal::Rank);
    unit.scheduled(&[800, 0], &[1, 255]);
    let sums_past_32_bits = [u32::MAX, 1];
    assert_eq!(
        Unit::a().refused_schedule(&sums_past_32_bits, &[1, 1]),
        Refusal::OverCapacity
    );
}

#[test]
fn refusals_10_to_13() {
    let mut unit = Unit::a();
    assert_eq!(unit.refused_close(), Refusal::MonthEmpty);
    for _ in 0..MOST_MONTH_BLOCKS {
        unit.block(&[0], &[200_000_000, 0]);
    }
    assert_eq!(
        unit.refused_block(&[200_000_001], &[0, 0]),
        Refusal::Reading
    );
    assert_eq!(
        unit.refused_block(&[0], &[0, 200_000_001]),
        Refusal::Reading
    );
    unit.record().unit_blocks.set(MOST_UNIT_BLOCKS);
    assert_eq!(unit.refused_block(&[0], &[0, 0]), Refusal::MonthFull);
    unit.close();
    assert_eq!(unit.refused_block(&[0], &[0, 0]), Refusal::UnitFull);
    assert_eq!(unit.refused_close(), Refusal::MonthEmpty);
}

const OFF_PEAK: u64 = 37; // slots
const NORMAL: u64 = 1;
const PEAK: u64 = 21;

#[test]
fn slots_of_the_classes() {
    let class_of = |slot: u64| Class::of_block_after(slot - 1);
    for (first, last, class) in [
        (1, 20, Class::Normal),
        (21, 36, Class::Peak),
        (37, 68, Class::OffPeak),
        (69, 76, Class::Normal),
        (77, 92, Class::Peak),
        (93, 96 + 20, Class::Normal),
        (96 + 21, 96 + 36, Class::Peak),
    ] {
        assert_eq!((class_of(first), class_of(last)), (class, class), "{first}");
    }
}

#[test]
fn a_block_adds_to_the_class_of_its_slot_each_month_from_slot_1() {
    let mut unit = Agreement::by_hours(1, 1).opened().scheduled(&[40], &[1]);
    for month in [100, 30] {
        let mut expected = [[0, 0]; CLASSES];
        for after in 0..month {
            unit.block(&[1], &[0]);
            expected[Class::of_block_after(after) as usize][0] += 1;
        }
        unit = unit.scheduled(&[0], &[1]);
        unit.block(&[0], &[5]);
        expected[Class::of_block_after(month) as usize][1] += 5;
        unit = unit.scheduled(&[40], &[1]);
        let record = unit.record();
        let places = |class: &ClassTotals| [class.pending[0].get(), class.open[0].get()];
        assert_eq!(record.by_class.each_ref().map(places), expected);
        assert_eq!(record.by_generator.pending[0].get(), month);
        assert_eq!(record.by_consumer.open[0].get(), 5);
        unit.close();
    }
}

#[test]
fn a_block_of_a_scheduled_generator_adds_to_no_class() {
    let mut agreement = Agreement::by_hours(1, 1);
    agreement.generator_list[0] = 0;
    let mut unit = agreement.opened().scheduled(&[40], &[1]);
    unit.block(&[10_000], &[4_000]);
    assert_eq!(unit.record().by_generator.inadvertent[0].get(), 6_000);
    assert_eq!(unit.class(Class::Normal).pending[0].get(), 0);
}

#[test]
fn the_charge_is_rounded_up_in_each_class() {
    let agreement = Agreement {
        rate: 1_000,
        ..Agreement::by_hours(1, 1)
    };
    let mut unit = agreement.opened().scheduled(&[40], &[1]);
    for slot in [NORMAL, PEAK, OFF_PEAK] {
        unit.block_in(slot, &[15], &[0]);
    }
    let closing = unit.close();
    assert_eq!((closing.charge, closing.lapsed), (vec![6], vec![39]));
    assert_eq!(closing.bank, [0]);
}

#[test]
fn peak_energy_serves_every_class_and_other_energy_its_own() {
    for (banked, served) in [
        (NORMAL, [NORMAL].as_slice()),
        (PEAK, &[NORMAL, PEAK, OFF_PEAK]),
        (OFF_PEAK, &[OFF_PEAK]),
    ] {
        for wanted in [NORMAL, PEAK, OFF_PEAK] {
            let mut unit = Agreement::by_hours(1, 1).opened().scheduled(&[40], &[1]);
            unit.block_in(banked, &[10], &[0]);
            unit.block_in(wanted, &[0], &[7]);
            let drawn = if served.contains(&wanted) { 7 } else { 0 };
            assert_eq!(
                unit.close(),
                Closing {
                    drawn: vec![drawn],
                    charge: vec![0],
                    lapsed: vec![10 - drawn],
                    bank: vec![0],
                    open: vec![7],
                    supplied: vec![7 - drawn],
                }
            );
        }
    }
}

#[test]
fn each_generator_gives_its_class_and_then_its_peak_before_the_next_one() {
    let unit = Agreement::by_hours(2, 1).opened();
    let mut unit = unit.scheduled(&[40, 40], &[2, 1]);
    unit.block_in(NORMAL, &[20, 3], &[0]);
    unit.block_in(PEAK, &[0, 5], &[0]);
    unit.block_in(69, &[0, 0], &[10]);
    let closing = unit.close();
    assert_eq!(closing.drawn, [2, 8]);
    assert_eq!(closing.lapsed, [18, 0]);
}

#[test]
fn each_consumer_settles_all_its_classes_before_the_next_one() {
    let unit = Agreement::by_hours(1, 2).opened();
    let mut unit = unit.scheduled(&[40, 0], &[1, 1]);
    unit.block_in(NORMAL, &[0], &[4, 6]);
    unit.block_in(PEAK, &[10], &[0, 0]);
    unit.block_in(PEAK + 1, &[0], &[6, 0]);
    let closing = unit.close();
    assert_eq!(closing.drawn, [10, 0]);
    assert_eq!((closing.open, closing.supplied), (vec![10, 6], vec![0, 6]));
}

#[test]
fn a_consumer_settles_off_peak_then_normal_then_peak() {
    let mut unit = Agreement::by_hours(1, 1).opened().scheduled(&[40], &[1]);
    unit.block_in(NORMAL, &[0], &[4]);
    unit.block_in(PEAK, &[0], &[4]);
    unit.block_in(PEAK + 1, &[9], &[0]);
    unit.block_in(OFF_PEAK, &[0], &[4]);
    assert_eq!(unit.close().drawn, [9]);

    // Off-peak energy is the first to be wanted: none of it is left to lapse.
    let mut unit = Agreement::by_hours(1, 1).opened().scheduled(&[40], &[1]);
    unit.block_in(PEAK, &[5], &[0]);
    unit.block_in(PEAK + 1, &[0], &[5]);
    unit.block_in(OFF_PEAK, &[3], &[0]);
    unit.block_in(OFF_PEAK + 1, &[0], &[4]);
    let closing = unit.close();
    assert_eq!((closing.drawn, closing.supplied), (vec![8], vec![1]));
}

#[test]
fn a_bank_by_hours_is_drawn_only_by_linked_consumers() {
    let mut agreement = Agreement::by_hours(2, 1);
    agreement.pair_list[0] = 0;
    let mut unit = agreement.opened().scheduled(&[0, 40], &[1, 2]);
    unit.block(&[0, 10], &[0]);
    unit.block(&[0, 0], &[15]);
    let totals = &mut unit.record().by_generator;
    totals.injected[0].add(20);
    totals.bank[0].add(20);
    unit.class(Class::Normal).bank[0].add(20);
    let closing = unit.close();
    assert_eq!((closing.drawn, closing.lapsed), (vec![0, 10], vec![20, 0]));
}

#[test]
fn the_closing_before_the_switch_month_ends_the_cycle() {
    let agreement = Agreement {
        cycle: 12,
        months_gone: 3,
        switch_month: 3,
        ..Agreement::by_hours(1, 1)
    };
    let mut unit = agreement.opened().scheduled(&[40], &[1]);
    let mut month = |slot, gone| {
        assert_eq!(unit.record().months_gone.get(), gone);
        unit.block(&[10], &[0]);
        unit.block_in(slot, &[0], &[7]);
        let pending = unit.class(Class::Normal).pending[0].get();
        let closing = unit.close();
        (
            pending,
            closing.drawn[0],
            closing.lapsed[0],
            closing.bank[0],
        )
    };
    // Old rules: off-peak draws what was banked in normal hours.
    assert_eq!(month(OFF_PEAK, 3), (0, 7, 0, 3));
    assert_eq!(month(OFF_PEAK, 4), (0, 7, 6, 0));
    // New rules.
    assert_eq!(month(OFF_PEAK, 0), (10, 0, 10, 0));
    assert_eq!(month(NORMAL + 1, 0), (10, 7, 3, 0));
    assert_eq!(unit.record().months_gone.get(), 0);
    assert_eq!(unit.record().closings.get(), 4);
}

#[test]
fn a_switch_month_far_ahead_changes_nothing_but_its_place() {
    let run = |switch_month| {
        let agreement = Agreement {
            switch_month,
            ..Agreement::a()
        };
        let mut unit = agreement.opened().scheduled(&[100, 200], &[1, 1]);
        let mut closings = Vec::new();
        for _ in 0..3 {
            unit.block(&[70_001], &[20_000, 0]);
            closings.push(unit.close());
        }
        unit.record().switch_month.set(0);
        (closings, unit.record)
    };
    assert!(run(0) == run(5));
    assert!(run(0) == run(1_200));
    assert!(run(0).0 != run(3).0);
}

#[test]
fn switch_month_1_opens_with_no_month_gone() {
    let mut agreement = Agreement {
        months_gone: 1,
        switch_month: 1,
        ..Agreement::a()
    };
    let mut unit = agreement.opened();
    assert_eq!(unit.record().months_gone.get(), 0);
    assert!(unit.is_sound());
    agreement.switch_month = 2;
    assert_eq!(agreement.opened().record().months_gone.get(), 1);
    agreement.switch_month = 1;
    agreement.months_gone = 2;
    assert_eq!(agreement.refused(), Refusal::BankTerm);
}

#[test]
fn a_scheduled_generator_may_hold_energy_of_a_class() {
    let mut agreement = Agreement::by_hours(1, 1);
    agreement.rate = 1_000;
    let mut unit = agreement.opened().scheduled(&[40], &[1]);
    unit.block_in(PEAK, &[15], &[0]);
    unit.record().generator[0].kind.set(0);
    let closing = unit.close();
    assert_eq!((closing.charge, closing.lapsed), (vec![2], vec![13]));
}

/// Two generators and three consumers that bank by hours, with energy in every class.
fn unit_by_hours() -> Unit {
    let unit = Agreement::by_hours(2, 3).opened();
    let mut unit = unit.scheduled(&[10, 10, 10, 10, 0, 0], &[1; 6]);
    for slot in [NORMAL, PEAK, OFF_PEAK] {
        unit.block_in(slot, &[9_000, 2_000], &[500, 6_000, 7_000]);
    }
    for class in [Class::OffPeak, Class::Normal, Class::Peak] {
        let totals = unit.class(class);
        let numbers = [&totals.pending[..2], &totals.open[1..3]].concat();
        assert!(numbers.iter().all(|number| number.get() > 0), "{class:?}");
    }
    assert!(unit.is_sound());
    unit
}

fn class_number(unit: &mut Unit, class: usize, place: usize) -> &mut Number {
    let class_numbers = RECORD_BYTES_BEFORE_HOURS / 8 + 2 + 32 * class;
    &mut numbers(&mut unit.record)[class_numbers + place]
}

#[test]
fn sound_switch_month_and_closings() {
    let mut unit = Unit::a();
    for _ in 0..5 {
        unit.block(&[0], &[0, 0]);
    }
    unit.close();
    unit.block(&[0], &[0, 0]);
    let mut is_sound = |switch_month, closings| {
        unit.record().switch_month.set(switch_month);
        unit.record().closings.set(closings);
        unit.is_sound()
    };
    assert!(is_sound(0, 0) && is_sound(0, 5) && is_sound(7, 5));
    assert!(is_sound(1_200, 0) && !is_sound(1_201, 0));
    for closings in [6, u64::MAX, u64::MAX - 1, 1 << 63] {
        assert!(!is_sound(0, closings) && !is_sound(7, closings));
    }
    // One month of the cycle is gone.
    assert!(is_sound(7, 5) && !is_sound(6, 5) && !is_sound(1, 0));
    assert!(is_sound(2, 0) && !is_sound(2, 1));
}

#[test]
fn sound_classes_are_0_before_the_switch_month() {
    for switch_month in [0, 2, 1_200] {
        let mut unit = unit_by_hours();
        unit.record().switch_month.set(switch_month);
        assert!(!unit.is_sound());
        unit.record().by_class = Default::default();
        assert!(unit.is_sound());
        for (class, place) in (0..CLASSES).flat_map(|class| (0..32).map(move |p| (class, p))) {
            class_number(&mut unit, class, place).set(1);
            assert!(!unit.is_sound());
            class_number(&mut unit, class, place).set(0);
        }
    }
}

#[test]
fn sound_classes_add_up_from_the_switch_month_on() {
    let mut unit = unit_by_hours();
    for (class, place) in (0..CLASSES).flat_map(|class| (0..32).map(move |p| (class, p))) {
        let was = class_number(&mut unit, class, place).get();
        for wrong in [was + 1, was.wrapping_sub(1), was ^ 1 << 63, was + (1 << 62)] {
            class_number(&mut unit, class, place).set(wrong);
            assert!(!unit.is_sound());
        }
        class_number(&mut unit, class, place).set(was);
    }
    for place in [8, 9, 16 + 1, 16 + 2] {
        class_number(&mut unit, 0, place).add(1);
        let peak = class_number(&mut unit, 2, place);
        peak.set(peak.get() - 1);
        assert!(unit.is_sound());
    }
    unit.record().months_gone.set(1);
    assert!(!unit.is_sound());
}

#[test]
fn classes_do_not_add_up_by_an_overflow() {
    for mores in [
        [1 << 63, 1 << 63, 0],
        [0, 1 << 63, 1 << 63],
        [1 << 62, 1 << 62, 1 << 63],
        [u64::MAX / 3, u64::MAX / 3, u64::MAX / 3 + 1],
    ] {
        for place in 0..32 {
            let mut unit = unit_by_hours();
            for (class, more) in mores.into_iter().enumerate() {
                let number = class_number(&mut unit, class, place);
                number.set(number.get().wrapping_add(more));
            }
            assert!(!unit.is_sound(), "{mores:?} at {place}");
        }
    }
}

/// A day of one reading in every block but those listed.
fn day_of(reading: u32, others: &[(usize, u32)]) -> [u32; DAY_BLOCKS] {
    let mut day = [reading; DAY_BLOCKS];
    for (block, reading) in others {
        day[*block] = *reading;
    }
    day
}

/// Meter and count, as the call on bytes writes them; a refusal leaves the output's bytes.
fn day(main: &[u32], check: &[u32], tolerance: u32) -> Result<Vec<u64>, Refusal> {
    let mut output = vec![0xee; 16];
    let result = engine::day(&bytes(main), &bytes(check), tolerance, &mut output);
    assert!(result.is_ok() || output.iter().all(|byte| *byte == 0xee));
    result.map(|()| values(&mut output))
}

#[test]
fn the_main_day_is_used_unless_a_reading_is_missing_there() {
    let whole = day_of(1_000, &[(7, MISSING - 1)]);
    let also_lacking = day_of(0, &[(20, MISSING)]);
    assert_eq!(day(&whole, &whole, 0), Ok(vec![0, 0]));
    for block in [0, 50, 95] {
        let lacking = day_of(1_000, &[(7, MISSING - 1), (block, MISSING)]);
        assert_eq!(day(&whole, &lacking, 0), Ok(vec![0, 0]));
        assert_eq!(day(&lacking, &whole, 0), Ok(vec![1, 0]));
        assert_eq!(
            day(&lacking, &also_lacking, 0),
            Err(Refusal::BothIncomplete)
        );
    }
}

#[test]
fn a_day_to_use_is_the_callers_own() {
    let whole = day_of(1_000, &[]);
    let same = day_of(1_000, &[]);
    let lacking = day_of(1_000, &[(95, MISSING)]);
    let (used, _) = engine::day_to_use(&whole, &same, 0).unwrap();
    assert!(ptr::eq(used, &whole[..]));
    let (used, _) = engine::day_to_use(&lacking, &same, 0).unwrap();
    assert!(ptr::eq(used, &same[..]));
}

#[test]
fn blocks_further_apart_than_the_tolerance_are_counted() {
    let main = day_of(1_000, &[(0, 1_100), (1, 1_101), (2, MISSING), (95, 0)]);
    let check = day_of(1_000, &[(3, 1_100), (4, 1_101), (5, 899), (6, 900)]);
    assert_eq!(day(&main, &check, 100), Ok(vec![1, 4]));
    assert_eq!(day(&check, &main, 100), Ok(vec![0, 4]));
    assert_eq!(day(&main, &check, 99), Ok(vec![1, 7]));
    let (least, most) = (day_of(0, &[]), day_of(MISSING - 1, &[]));
    assert_eq!(day(&least, &most, MISSING - 2), Ok(vec![0, 96]));
    assert_eq!(day(&least, &most, MISSING - 1), Ok(vec![0, 0]));
    assert_eq!(day(&least, &most, MISSING), Ok(vec![0, 0]));
}

#[test]
fn refusal_2_of_a_day_comes_before_17() {
    let lacking = day_of(0, &[(0, MISSING)]);
    let whole = day_of(0, &[]);
    assert_eq!(day(&lacking[1..], &whole, 0), Err(Refusal::Length));
    assert_eq!(day(&whole, &[0; 97], 0), Err(Refusal::Length));
    assert_eq!(day(&lacking, &lacking[..95], 0), Err(Refusal::Length));
    assert_eq!(
        engine::day_to_use(&lacking[..], &lacking[..95], 0),
        Err(Refusal::Length)
    );

    let (main, check) = (bytes(&lacking), bytes(&lacking));
    for output_bytes in [0, 15, 17, 24] {
        let result = engine::day(&main, &check, 0, &mut vec![0; output_bytes]);
        assert_eq!(result, Err(Refusal::Length));
    }
    let result = engine::day(&main[1..], &check, 0, &mut [0; 16]);
    assert_eq!(result, Err(Refusal::Length));
}
