//! The parts of the simulator's test that need no simulator: printed rows read back, start lines, the timetable, differences.

use dansevik::designs::{drawn, squaring, Chance};
use dansevik::naive::{self, Source};
use dansevik::printed::lowered;
use dansevik::simulator::{
    bench, control, differences, parse, timetable, Control, Cycles, Drive, Go, In, Line, Out, Pattern, Wire,
};

fn design(file: &[u8]) -> Vec<naive::Component> {
    naive::design(&naive::records(file).unwrap()).unwrap()
}

fn squaring_control() -> Control {
    parse(&lowered(&squaring().file())).unwrap().remove(0)
}

#[test]
fn the_rows_of_the_squaring_example_are_read_back() {
    let input = |invocation, port, at, source| In { invocation, instance: 0, port, first: at, last: at, source };
    let expected = Control {
        component: 1,
        delay: 4,
        states: 5,
        goes: vec![Go { invocation: 0, instance: 0, state: 0 }, Go { invocation: 1, instance: 0, state: 2 }],
        inputs: vec![
            input(0, 0, 0, Source::Own(0)),
            input(0, 1, 0, Source::Own(1)),
            input(1, 0, 2, Source::Output(0, 0)),
            input(1, 1, 2, Source::Output(0, 0)),
        ],
        outputs: vec![Out { port: 0, source: Source::Output(1, 0) }],
    };
    assert_eq!(parse(&lowered(&squaring().file())), Ok(vec![expected]));
    assert_eq!(parse("end\n"), Ok(vec![]));
    let most = parse("component 0 delay 1 states 1\nout 0 const 18446744073709551615\nend\n").unwrap();
    assert_eq!(most[0].outputs, [Out { port: 0, source: Source::Constant(u64::MAX) }]);
}

#[test]
fn the_rows_of_designs_by_chance_are_read_back() {
    for seed in 0..300 {
        let file = drawn(&mut Chance::new(seed), 10).list().file();
        let design = design(&file);
        let controls = parse(&lowered(&file)).unwrap();
        assert_eq!(controls.len(), design.iter().filter(|component| component.built).count());
        for read in controls {
            let own = &design[read.component];
            let rows = naive::rows(&design, read.component);
            assert_eq!([read.delay, read.states], rows[0][1..3]);
            let goes: Vec<[u64; 3]> = read.goes.iter().map(|go| [go.invocation as u64, go.instance as u64, go.state]).collect();
            assert_eq!(goes, rows.iter().filter(|row| row[0] == 2).map(|row| [row[1], row[2], row[3]]).collect::<Vec<_>>());
            let ins: Vec<[u64; 4]> =
                read.inputs.iter().map(|row| [row.invocation as u64, row.port as u64, row.first, row.last]).collect();
            assert_eq!(
                ins,
                rows.iter().filter(|row| row[0] == 3).map(|row| [row[1], row[2], row[3], row[4]]).collect::<Vec<_>>()
            );
            let arguments: Vec<&Source> = own.arguments.iter().flatten().collect();
            assert_eq!(read.inputs.iter().map(|row| &row.source).collect::<Vec<_>>(), arguments);
            assert!(read.inputs.iter().all(|row| row.instance == own.calls[row.invocation].instance));
            assert_eq!(read.outputs.iter().map(|row| row.source.clone()).collect::<Vec<_>>(), own.connections);
        }
    }
}

#[test]
fn what_is_no_row_or_not_in_its_place_is_refused() {
    let head = "component 1 delay 4 states 5\n";
    let after = |rows: &str| parse(&format!("{head}{rows}\nend\n"));
    assert!(after("go 0 0 0\nin 0 0 0 0 own 0\nout 0 own 0").is_ok());
    let wrong = [
        "go 0 0",
        "go 0 0 0 0",
        "go 0 0 x",
        "go 0 0 -1",
        "go 0 0 +1",
        "go 0 0 00",
        "go 0  0 0",
        "go 0 0 0 ",
        "in 0 0 0 0 own 0",
        "go 0 0 0\nin 1 0 0 0 own 0",
        "go 0 0 0\nin 0 0 0 0",
        "go 0 0 0\nin 0 0 0 0 own",
        "go 0 0 0\nin 0 0 0 0 own 0 0",
        "go 0 0 0\nin 0 0 0 0 inv 0",
        "go 0 0 0\nin 0 0 0 0 const 18446744073709551616",
        "go 0 0 0\nin 0 0 0 0 none 0",
        "out 0 own 0\ngo 0 0 0",
        "component 2 delay 4 states 0",
        "component 2 delay 0 states 1",
        "component 2 delay 4",
        "",
    ];
    for rows in wrong {
        assert!(after(rows).is_err(), "{rows:?}");
    }
    assert_eq!(parse("refused 11 at 12\n"), Err("line 1: \"refused 11 at 12\"".to_string()));
    assert_eq!(parse("go 0 0 0\nend\n"), Err("line 1: \"go 0 0 0\"".to_string()));
    assert_eq!(parse(head), Err("no end".to_string()));
    assert_eq!(parse("end\nend\n"), Err("after the end: \"end\"".to_string()));
}

#[test]
fn wrong_guards_go_on_for_a_cycle() {
    let right = squaring_control();
    let wrong = right.through_end();
    assert!(wrong.inputs.iter().zip(&right.inputs).all(|(wrong, right)| wrong.last == right.last + 1));
    assert_eq!(wrong.states, 5);
    let tight = parse("component 1 delay 1 states 3\ngo 0 0 0\nin 0 0 1 2 own 0\nend\n").unwrap().remove(0);
    assert_eq!(tight.through_end().states, 4);
}

#[test]
fn start_lines_keep_the_delay_and_end_after_the_last_state() {
    let mut chance = Chance::new(5);
    let mut seen = Vec::new();
    for _ in 0..2_000 {
        let (delay, states) = (1 + chance.below(1024) as u64, 1 + chance.below(2047) as u64);
        let line = Line::drawn(&mut chance, delay, states);
        assert!(line.starts.windows(2).all(|two| two[0] + delay <= two[1]));
        assert!(line.starts.last().unwrap() + states < line.cycles);
        seen.extend(line.patterns);
    }
    assert!(Pattern::ALL.iter().all(|pattern| seen.contains(pattern)));
}

#[test]
fn the_timetable_of_the_squaring_example() {
    let driven = timetable(&design(&squaring().file()), 1, &[0, 4]);
    let (first, second) = (Source::Own(0), Source::Own(1));
    let product = Source::Output(0, 0);
    let mut expected = Cycles::new();
    let mut enter = |cycle: u64, wire: Wire, invocation: Option<usize>, source: Option<&Source>| {
        expected.insert((cycle, wire), format!("{} 0", Drive { invocation, source }.code()));
    };
    enter(0, Wire::Output { port: 0 }, None, Some(&Source::Output(1, 0)));
    for c in [0, 4] {
        enter(c, Wire::Start { instance: 0 }, Some(0), None);
        enter(c, Wire::Input { instance: 0, port: 0 }, Some(0), Some(&first));
        enter(c, Wire::Input { instance: 0, port: 1 }, Some(0), Some(&second));
        enter(c + 2, Wire::Start { instance: 0 }, Some(1), None);
        enter(c + 2, Wire::Input { instance: 0, port: 0 }, Some(1), Some(&product));
        enter(c + 2, Wire::Input { instance: 0, port: 1 }, Some(1), Some(&product));
    }
    assert_eq!(driven, expected);
}

#[test]
fn differences_are_found_on_both_sides() {
    let cycles = |bits: &[(u64, &str)]| -> Cycles {
        bits.iter().map(|(cycle, bits)| ((*cycle, Wire::Start { instance: 0 }), bits.to_string())).collect()
    };
    let code = |invocation, source: &Source| Drive { invocation: Some(invocation), source: Some(source) }.code();
    let (own, output, most) = (code(0, &Source::Own(15)), code(63, &Source::Output(62, 3)), code(1, &Source::Constant(u64::MAX)));
    let right = |code: &str| format!("{code} 0");
    let timetable = cycles(&[(0, &right(&own)), (1, &right(&output)), (2, &right(&most))]);
    assert_eq!(differences(&timetable, &timetable), []);
    let found = differences(&timetable, &cycles(&[(0, &right(&own)), (1, &format!("{own} 1")), (3, "0x x")]));
    let said: Vec<String> = found.iter().map(|difference| difference.to_string()).collect();
    let expected = [
        "cycle 1 start 0: timetable invocation 63 inv 62 3, simulator invocation 0 own 15 with two guards at once",
        "cycle 2 start 0: timetable invocation 1 const 18446744073709551615, simulator nothing",
        "cycle 3 start 0: timetable nothing, simulator unknown bits 0x x",
    ];
    assert_eq!(said, expected);
    assert_eq!(found.iter().map(|difference| difference.clashes()).collect::<Vec<_>>(), [true, false, false]);
}

#[test]
fn verilog_has_one_flip_flop_less_than_states() {
    let text = control(7, &squaring_control());
    for line in ["reg [4:1] held;", "wire go_1 = |held[2:2];", "wire in_0_0 = start;", "wire in_1_1 = |held[2:2];"] {
        assert!(text.contains(line), "{text}");
    }
    let line = Line { starts: vec![1, 5], cycles: 12, patterns: vec![] };
    let text = bench(7, &squaring_control(), &line);
    for line in ["integer cycle = -4;", "run(0, 5);\n    run(1, 1); run(0, 3);\n    run(1, 1); run(0, 6);\n"] {
        assert!(text.contains(line), "{text}");
    }
}
