//! The worked examples of docs/PROTOCOL.md, sections 13 and 14.

use twin::{Bank, Cause, Dials, Fault, JunctionBox, Platform, Record, Recording, Stop, Terminal};

const CORNERS: [i32; 4] = [250_125, 250_124, 250_126, 250_125];

fn platform(digits: [i32; 4]) -> Terminal<JunctionBox<Dials>> {
    let mut dials = Dials::new();
    for (port, digits) in (1..).zip(digits) {
        dials.fit(port, 1000).unwrap();
        dials.set(port, digits, 100).unwrap();
    }
    dials.fit(5, 1000).unwrap();
    dials.set(5, 500_000, 100).unwrap();
    let (joined, refused) = JunctionBox::wire(dials, &[(2, 1), (3, 1), (4, 1)]);
    assert_eq!(refused, 0);
    Terminal::new(joined)
}

fn single(digits: i32) -> Terminal<Dials> {
    let mut dials = Dials::new();
    dials.fit(1, 1000).unwrap();
    dials.set(1, digits, 200).unwrap();
    let mut terminal = Terminal::new(dials);
    ask(&mut terminal, "S01");
    ask(&mut terminal, "SPW\"AED\"");
    terminal
}

fn ask<B: Bank>(terminal: &mut Terminal<B>, command: &str) -> Vec<u8> {
    let mut buffer = [0xAA; 1100];
    let obeyed = terminal.obey(command.as_bytes(), &mut buffer);
    assert!(buffer[obeyed.written..].iter().all(|&byte| byte == 0xAA));
    buffer[..obeyed.written].to_vec()
}

fn fault<B: Bank>(terminal: &mut Terminal<B>, command: &str) -> Option<Fault> {
    terminal.obey(command.as_bytes(), &mut [0; 1088]).fault
}

#[test]
fn the_platform() {
    let mut terminal = platform(CORNERS);
    let mut buffer = [0xAA; 4096];
    let run = b"S01;COF3;MSV?;S05;MSV?;S98;MSV?;S05;";
    let served = terminal.serve(run, &mut buffer);
    assert_eq!((served.used, served.stop), (run.len(), Stop::UsedUp));
    let wanted = "0\r\n+1000500\r\n+0500000,05,008\r\n+0500000,05,008\r\n";
    assert_eq!(&buffer[..served.written], wanted.as_bytes());
    assert!(buffer[served.written..].iter().all(|&byte| byte == 0xAA));
}

#[test]
fn the_stored_input_of_the_platform() {
    let input = include_bytes!("../../crates/platform/stdin");
    let wanted = include_bytes!("../../crates/platform/stdout");
    assert_eq!(Platform::PAGE.play(input).unwrap(), wanted);
}

/// Blanks, and the command behind them; its end character is the byte of
/// that number.
fn ending_at(end: usize, command: &str) -> Vec<u8> {
    let mut input = b"S01;".to_vec();
    input.resize(end - command.len() - 60, b';');
    input.resize(end - command.len() - 1, b' ');
    input.extend(format!("{command};").bytes());
    input
}

#[test]
fn the_last_byte_that_is_read() {
    for (end, command, answer) in [(4096, "COF?", "009\r\n"), (4097, "COF?", "")] {
        let mut input = ending_at(end, command);
        assert_eq!(input.len(), end);
        assert_eq!(Platform::PAGE.play(&input).unwrap(), answer.as_bytes());
        input.extend(b"x;COF?;MSV?;");
        assert_eq!(Platform::PAGE.play(&input).unwrap(), answer.as_bytes());
    }
}

#[test]
fn the_hundredth_reading() {
    for select in ["S01", "S05"] {
        let run = format!("{select};COF35;MSV?64;MSV?37;ESR?;MSV?36;MSV?;ESR?;");
        let answers = Platform::PAGE.play(run.as_bytes()).unwrap();
        let port = &select[1..];
        let refusal = format!("?\r\n013,B,0{port}\r\n");
        let [first, last] = [64, 36].map(|values| values * 8);
        assert_eq!(answers.len(), 3 + first + last + 2 * refusal.len());
        assert!(answers[3 + first..].starts_with(refusal.as_bytes()));
        assert!(answers.ends_with(refusal.as_bytes()));
    }
}

#[test]
fn one_rounding_of_the_sum() {
    for (sign, plain, stepped) in
        [(1, b"+0003002\r\n", b"+0003000\r\n"), (-1, b"-0003002\r\n", b"-0003000\r\n")]
    {
        let mut terminal = platform(CORNERS.map(|digits| sign * digits));
        for command in ["S01", "SPW\"AED\"", "COF3", "NOV3000"] {
            ask(&mut terminal, command);
        }
        assert_eq!(ask(&mut terminal, "MSV?"), plain);
        ask(&mut terminal, "RSN5");
        assert_eq!(ask(&mut terminal, "MSV?"), stepped);
    }
}

#[test]
fn averaging_rounds_once() {
    let records = [Record { port: 1, digits: 100_001 }, Record { port: 1, digits: 100_002 }];
    let mut recording = Recording::new(&records);
    recording.fit(1, 1000).unwrap();
    let mut terminal = Terminal::new(recording);
    for command in ["S01", "ICR1", "COF3"] {
        ask(&mut terminal, command);
    }
    assert_eq!(ask(&mut terminal, "MSV?"), b"+0100002\r\n");
    assert_eq!(fault(&mut terminal, "MSV?"), Some(Fault::new(Cause::NoReading, 1)));
}

#[test]
fn binary_formats() {
    let mut terminal = single(1_000_000);
    ask(&mut terminal, "COF8");
    assert_eq!(ask(&mut terminal, "MSV?"), [0x4E, 0x20, 0x00, 0x08, 0x0D, 0x0A]);
    ask(&mut terminal, "COF12");
    assert_eq!(ask(&mut terminal, "MSV?"), [0x08, 0x00, 0x20, 0x4E, 0x0D, 0x0A]);
    let mut terminal = single(0);
    ask(&mut terminal, "COF2");
    ask(&mut terminal, "NOV40000");
    assert_eq!(ask(&mut terminal, "MSV?"), [0x7F, 0xFF, 0x0D, 0x0A]);
}

#[test]
fn numbers_and_blocks() {
    let mut terminal = single(5);
    let malformed = Some(Fault::new(Cause::Malformed, 3));
    let beyond = Some(Fault::new(Cause::OutOfRange, 3));
    assert_eq!(fault(&mut terminal, "NOV1.25e1"), malformed);
    assert_eq!(fault(&mut terminal, "NOV9e99"), beyond);
    assert_eq!(fault(&mut terminal, "NOV00001599e3"), None);
    assert_eq!(fault(&mut terminal, "NOV000001599e3"), malformed);
    assert_eq!(fault(&mut terminal, "NOV1599999"), None);
    assert_eq!(fault(&mut terminal, "NOV1600000"), beyond);
    assert_eq!(ask(&mut terminal, "MSV?64").len(), 1088);
    assert_eq!(fault(&mut terminal, "MSV?65"), Some(Fault::new(Cause::OutOfRange, 4)));
}

#[test]
fn a_ninth_gauge_and_an_empty_fourth() {
    let mut dials = Dials::new();
    for port in 0..9 {
        dials.fit(port, 1000).unwrap();
        dials.set(port, 10, u16::from(port != 3)).unwrap();
    }
    let mut joined = JunctionBox::new(dials);
    for port in 0..8 {
        joined.join(port, 0).unwrap();
    }
    assert_eq!(joined.join(8, 0), Err(Fault::new(Cause::NinthGauge, 0)));
    assert_eq!(joined.join(7, 0), Ok(()));
    assert_eq!(joined.take(0), Err(Fault::new(Cause::NoReading, 0)));
    assert_eq!(joined.bank().waiting(0), Ok(1));
}
