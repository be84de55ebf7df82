//! The halls in which a run is served, made alike on both sides.

use twin::{Dials, JunctionBox, Record, Recording, Terminal};

/// What stands under the scales.
#[derive(Clone, Copy, Debug)]
pub enum Hall {
    /// Dials at all ports, so many boxes on them, and so many ports from 1 on joined to port 1 in the lowest.
    Dials { boxes: u8, ports: u8 },
    /// A recording of 65,535 records of port 1.
    Recording,
}

extern "C" {
    fn weighing_serve_dials(
        boxes: u8,
        ports: u8,
        digits: *const i32,
        digit_count: usize,
        run: *const u8,
        run_length: usize,
        answers: *mut u8,
        room: usize,
        written: *mut usize,
    ) -> u8;
    fn weighing_serve_recording(
        digits: *const i32,
        digit_count: usize,
        run: *const u8,
        run_length: usize,
        answers: *mut u8,
        room: usize,
        written: *mut usize,
    ) -> u8;
}

const RECORDS: usize = 65_535;

fn dial_digits() -> [i32; 32] {
    std::array::from_fn(|port| 100_001 + 1_013 * port as i32)
}

fn recorded_digits() -> Vec<i32> {
    (0..RECORDS as i32).map(|i| 200_003 + 7 * (i % 50_000)).collect()
}

/// How many bytes the proved terminal writes. A hall that it refuses is a mistake in a case and ends the bench.
pub fn serve_proved(hall: Hall, run: &[u8], answers: &mut [u8]) -> usize {
    let mut written = 0;
    let refused = match hall {
        Hall::Dials { boxes, ports } => {
            let digits = dial_digits();
            // SAFETY: each pointer to a slice comes with its length; answers and written are lent to nobody else.
            unsafe {
                weighing_serve_dials(
                    boxes,
                    ports,
                    digits.as_ptr(),
                    digits.len(),
                    run.as_ptr(),
                    run.len(),
                    answers.as_mut_ptr(),
                    answers.len(),
                    &mut written,
                )
            }
        }
        Hall::Recording => {
            let digits = recorded_digits();
            // SAFETY: as above.
            unsafe {
                weighing_serve_recording(
                    digits.as_ptr(),
                    digits.len(),
                    run.as_ptr(),
                    run.len(),
                    answers.as_mut_ptr(),
                    answers.len(),
                    &mut written,
                )
            }
        }
    };
    assert!(refused == 0, "the proved terminal refuses {hall:?} with cause {refused}");
    written
}

fn dials() -> Dials {
    let mut dials = Dials::new();
    for (port, digits) in (0..).zip(dial_digits()) {
        dials.fit(port, 1000).expect("a factor");
        dials.set(port, digits, 65_535).expect("a port");
    }
    dials
}

fn joined(dials: Dials, ports: u8) -> JunctionBox<Dials> {
    let mut junction = JunctionBox::new(dials);
    for port in 1..=ports {
        let _ = junction.join(port, 1);
    }
    junction
}

pub fn serve_twin(hall: Hall, run: &[u8], answers: &mut [u8]) -> usize {
    match hall {
        Hall::Dials { boxes, ports } => {
            if boxes == 0 {
                return Terminal::new(dials()).serve(run, answers).written;
            }
            let one = joined(dials(), ports);
            match boxes {
                1 => Terminal::new(one).serve(run, answers).written,
                2 => Terminal::new(JunctionBox::new(one)).serve(run, answers).written,
                3 => {
                    Terminal::new(JunctionBox::new(JunctionBox::new(one)))
                        .serve(run, answers)
                        .written
                }
                _ => {
                    Terminal::new(JunctionBox::new(JunctionBox::new(JunctionBox::new(one))))
                        .serve(run, answers)
                        .written
                }
            }
        }
        Hall::Recording => {
            let records: Vec<Record> =
                recorded_digits().into_iter().map(|digits| Record { port: 1, digits }).collect();
            let mut recording = Recording::new(&records);
            recording.fit(1, 1000).expect("a factor");
            Terminal::new(recording).serve(run, answers).written
        }
    }
}
