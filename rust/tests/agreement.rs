//! The fast implementation against the naive one, on files by chance, damaged ones, and the largest and the hostile ones.

use dansevik::designs::{self, damaged, damaged_blocks, drawn, seal, targets, Chance};
use dansevik::naive;
use dansevik::plain::{self, Signature, ROWS};
use std::collections::BTreeMap;

fn fast(file: &[u8]) -> Result<(usize, usize), naive::Refused> {
    let mut table = [Signature { class: 1, delay: 2, inputs: 3, outputs: 4, first: 5 }; ROWS];
    let answer = plain::judge(file, &mut table);
    assert!(table.iter().all(|row| *row == Signature::default()), "the table is zero after every call");
    answer.map(|a| (a.components, a.records)).map_err(|r| (r.fault as u64, r.position))
}

/// Both answers, which must agree.
fn agreed(file: &[u8], what: &str) -> Result<(usize, usize), naive::Refused> {
    let answer = fast(file);
    assert_eq!(answer, naive::judge(file), "{what}");
    answer
}

#[test]
fn lawful_designs_are_accepted() {
    for seed in 0..4_000 {
        let drawing = drawn(&mut Chance::new(seed), if seed % 10 == 0 { 64 } else { 8 });
        let answer = agreed(&drawing.list().file(), &format!("seed {seed}"));
        assert_eq!(answer, Ok((drawing.components.len(), drawing.records())), "seed {seed}");
    }
}

#[test]
fn damaged_designs_are_refused_alike() {
    let mut often = BTreeMap::from([(0, 0)]);
    often.extend(targets().into_iter().map(|fault| (fault as u64, 0)));
    for seed in 0..40_000 {
        let mut chance = Chance::new(seed);
        let most = if seed % 50 == 0 { 64 } else { 6 };
        let mut list = drawn(&mut chance, most).list();
        for _ in 0..1 + chance.below(3) {
            list = damaged(&mut chance, list);
        }
        let mut file = list.file();
        if chance.one_in(12) {
            file = damaged_blocks(&mut chance, file);
        }
        let answer = agreed(&file, &format!("seed {seed}"));
        *often.entry(answer.map_or_else(|(number, _)| number, |_| 0)).or_insert(0) += 1;
    }
    println!("accepted, and each refusal: {often:?}");
    assert!(often.values().all(|n| *n >= 50), "every answer comes up: {often:?}");
}

#[test]
fn the_largest_and_the_hostile_agree_with_a_fault_anywhere() {
    let mut chance = Chance::new(7);
    for list in [designs::rich(), designs::scattered(false), designs::hidden(), designs::empty_levels()] {
        assert!(agreed(&list.file(), "whole").is_ok());
        for round in 0..40 {
            let again = damaged(&mut chance, list.clone());
            let _ = agreed(&again.file(), &format!("round {round}"));
        }
    }
    assert_eq!(agreed(&designs::scattered(true).file(), "late"), Err((10, 3960)));
}

#[test]
fn bytes_by_chance_are_refused_alike() {
    for seed in 0..3_000 {
        let mut chance = Chance::new(seed);
        let mut file: Vec<u8> = (0..512 * (1 + chance.below(3))).map(|_| chance.number() as u8).collect();
        if chance.one_in(2) {
            seal(&mut file);
        }
        // a sound block of small numbers, so that some records pass
        if chance.one_in(2) {
            let mut list = designs::List::new().leaf(1);
            list.records.extend((0..chance.below(30)).map(|_| {
                let mut record = [0; 16];
                record[..3].copy_from_slice(&[chance.below(8) as u8, chance.below(3) as u8, chance.below(3) as u8]);
                record[4] = chance.below(3) as u8;
                record[6] = chance.below(2) as u8;
                record
            }));
            file = list.file();
        }
        let _ = agreed(&file, &format!("seed {seed}"));
    }
}

#[test]
fn the_largest_rich_file_is_what_it_says() {
    let list = designs::rich();
    let kind = |kind: u8| list.records.iter().filter(|record| record[0] == kind).count();
    let source = |source: u8| list.records.iter().filter(|record| record[0] == 5 && record[1] == source).count();
    assert_eq!((list.records.len(), list.file().len()), (3968, 65_536));
    assert_eq!((kind(1), kind(4), kind(5)), (64, 770, 2310));
    assert!(source(0) > 300 && source(1) > 300 && source(2) > 300);
}

#[test]
fn the_largest_rich_file_keeps_its_rules_with_equality() {
    let design = naive::design(&naive::records(&designs::rich().file()).unwrap()).unwrap();
    for own in design.iter().filter(|own| own.built) {
        let falls = own.calls.windows(2).any(|pair| pair[0].offset > pair[1].offset);
        assert!(falls, "offsets that do not rise");
        let exact = (0..own.instances.len()).any(|instance| {
            let d = design[own.instances[instance]].delay;
            let mut uses: Vec<u64> = own.calls.iter().filter(|call| call.instance == instance).map(|call| call.offset).collect();
            uses.sort_unstable();
            uses.len() > 1
                && uses.windows(2).all(|pair| pair[0] + d == pair[1])
                && uses[uses.len() - 1] - uses[0] + d == own.delay
        });
        assert!(exact, "an instance at exactly its delay over exactly the component's");
    }
}
