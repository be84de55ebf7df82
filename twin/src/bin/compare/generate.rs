//! Whole scripts.

use crate::building::{self, Building};
use crate::phrase;
use crate::rng::Rng;
use crate::scenes::{self, Mind};
use crate::spell;
use twin::hall::escape;

pub type Lines = Vec<Vec<u8>>;

/// Lines that hold no request, or not one in order.
const STRAY_LINES: &[&str] = &[
    "# a comment",
    "",
    "   ",
    "#",
    "bank dials",
    "bank recording",
    "bank",
    "bank platform",
    "fit 1 1000",
    "fit 1",
    "fit 1 70000",
    "fit 256 1000",
    "set 1 2 3",
    "set 1 2 70000",
    "set 1 -5 3",
    "set 1 +5 3",
    "set 1 2147483648 1",
    "set 1 -2147483649 1",
    "record 1 5",
    "record 1 -2147483648",
    "record 1",
    "record 1 -",
    "join 1 1 1",
    "join 0 1 1",
    "join 5 1 1",
    "join 2 1",
    "join 4 31 31",
    "gauges 1",
    "gauges -1",
    "gauges",
    "waiting 0",
    "take 0",
    "take 00000000000000000000000",
    "obey 1088",
    "obey 65537 S01",
    "obey  1088 S01",
    "obey 1088 \\",
    "obey 1088 \\x",
    "obey 1088 \\xG0",
    "obey 1088 \\x4",
    "obey 1088 \\t",
    "obey x S01",
    "serve 1088",
    "serve -1 S01;",
    "SERVE 1088 S01;",
    "split",
    "split ",
    "split ;",
    "split no end",
    "split one;two",
    "split \\x11\\n",
    "split a\\\\b\\r\\n;",
    "split \"a;b\"",
    "fit 1 1000 ",
    " fit 1 1000",
    "fit\t1 1000",
    "hello",
    "obey 1088 S01\r",
    "obey 01088 S01",
    "split caf\u{e9};",
    "\r",
];

pub fn script(seed: u64) -> Lines {
    let mut rng = Rng::new(seed);
    let rng = &mut rng;
    let Building { mut lines, present, loads } = building::build(rng);
    if rng.chance(12) {
        stray(rng, &mut lines);
    }
    let wanted = match rng.below(10) {
        0 | 1 => rng.below(10) + 1,
        2..=7 => rng.below(80) + 20,
        _ => rng.below(300) + 100,
    };
    let mut mind = Mind::new(&present, loads);
    if rng.chance(95) {
        let select = phrase::select_of(rng, usize::from(mind.selected));
        say(rng, &mut lines, vec![select]);
    }
    if rng.chance(60) {
        say(rng, &mut lines, vec![b"SPW\"AED\"".to_vec()]);
    }
    let mut said = 0;
    while said < wanted {
        let mut commands = scenes::next(rng, &mut mind);
        while rng.chance(30) {
            commands.extend(scenes::next(rng, &mut mind));
        }
        said += commands.len();
        say(rng, &mut lines, commands.clone());
        if rng.chance(1) {
            stray(rng, &mut lines);
        }
        if rng.chance(4) {
            let few = rng.below(3).min(commands.len());
            let mut run = run_of(rng, &commands[..few]);
            if rng.chance(40) {
                run.retain(|byte| !b"\n;".contains(byte));
            }
            lines.push(split(&run));
        }
    }
    if wanted > 10 {
        for &address in present.iter().take(4) {
            let mut commands = vec![phrase::select_of(rng, usize::from(address))];
            commands.extend(scenes::sweep(rng));
            commands.push(b"MSV?".to_vec());
            commands.push(b"ESR?".to_vec());
            say(rng, &mut lines, commands);
        }
    }
    if rng.chance(10) {
        spoil(rng, &mut lines);
    }
    lines
}

/// Damages a line of the script, but leaves it one line.
fn spoil(rng: &mut Rng, lines: &mut Lines) {
    let at = rng.below(lines.len());
    phrase::damage(rng, &mut lines[at]);
    lines[at].retain(|&byte| byte != b'\n');
}

fn stray(rng: &mut Rng, lines: &mut Lines) {
    for _ in 0..rng.below(4) + 1 {
        let at = if rng.chance(50) { lines.len() } else { rng.below(lines.len() + 1) };
        lines.insert(at, rng.pick(STRAY_LINES).as_bytes().to_vec());
    }
}

/// Gives commands to the terminal, one by one or as runs.
fn say(rng: &mut Rng, lines: &mut Lines, commands: Vec<Vec<u8>>) {
    if rng.chance(45) {
        let whole = rng.chance(70);
        let room = if whole { 65_536 } else { serve_room(rng) };
        let run = run_of(rng, &commands);
        lines.push(call("serve", room, &run));
        return;
    }
    for mut command in commands {
        if rng.chance(2) {
            phrase::damage(rng, &mut command);
        }
        if rng.chance(10) {
            command.extend(*rng.pick(&[&b"\r\n"[..], b"\n", b"\r", b" ", b";"]));
        }
        lines.push(call("obey", obey_room(rng), &command));
        if rng.chance(1) {
            lines.push(call("obey", 1088, &[]));
        }
    }
}

pub fn run_of(rng: &mut Rng, commands: &[Vec<u8>]) -> Vec<u8> {
    let mut run = Vec::new();
    let style = rng.below(4);
    for command in commands {
        run.extend(command);
        let end = if style == 3 { rng.below(3) } else { style };
        run.extend([&b";"[..], b"\r\n", b"\n"][end]);
        if rng.chance(2) {
            run.extend(*rng.pick(&[&b";;"[..], b" ;", b"\n\n", b"\x11;"]));
        }
    }
    if rng.chance(12) {
        run.pop();
    }
    if rng.chance(3) {
        run.push(spell::byte(rng));
    }
    run
}

fn obey_room(rng: &mut Rng) -> usize {
    match rng.below(60) {
        0 => *rng.pick(&[0, 1, 3, 17, 1086, 1087, 1087]),
        1..=4 => *rng.pick(&[1089, 1100, 4096, 65_535, 65_536]),
        _ => 1088,
    }
}

fn serve_room(rng: &mut Rng) -> usize {
    match rng.below(4) {
        0 => *rng.pick(&[0, 1, 1000, 1087, 1087]),
        1 => *rng.pick(&[1088, 1088, 1089, 1090, 1091]),
        2 => 1088 + rng.below(60),
        _ => *rng.pick(&[1200, 2000, 2175, 2176, 2177, 4096, 10_000]),
    }
}

pub fn call(name: &str, room: usize, bytes: &[u8]) -> Vec<u8> {
    let mut line = format!("{name} {room} ").into_bytes();
    escape::write(bytes, &mut line);
    line
}

fn split(run: &[u8]) -> Vec<u8> {
    let mut line = b"split ".to_vec();
    escape::write(run, &mut line);
    line
}

/// The lines as one script; some scripts lack the last line feed.
pub fn joined(lines: &[Vec<u8>]) -> Vec<u8> {
    let mut script = lines.join(&b'\n');
    if !lines.len().is_multiple_of(3) {
        script.push(b'\n');
    }
    script
}
