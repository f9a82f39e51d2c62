//! That an aimed fault most often gives the refusal that it is aimed at, and that designs of any shape are lawful.

use dansevik::designs::{aimed, drawn, shaped, targets, Chance, Shape};
use dansevik::naive;

#[test]
fn an_aimed_fault_gives_its_refusal() {
    for target in targets() {
        let hit = (0..400).filter(|seed| {
            let mut chance = Chance::new(*seed);
            let drawing = drawn(&mut chance, 8);
            let answer = naive::judge(&aimed(&mut chance, target, drawing));
            answer.map_or_else(|(found, _)| found, |_| 0) == target as u64
        });
        let often = hit.count();
        println!("{target:?}: {often} of 400");
        assert!(often > 100, "{target:?}: {often} of 400");
    }
}

#[test]
fn designs_of_every_shape_are_lawful() {
    for seed in 0..60 {
        let mut chance = Chance::new(seed);
        let shape = Shape { instances: 1 + chance.below(20), calls: chance.below(60), deep: chance.one_in(2) };
        let drawing = shaped(&mut chance, 64, &shape);
        assert_eq!(naive::judge(&drawing.list().file()), Ok((drawing.components.len(), drawing.records())), "seed {seed}");
    }
}
