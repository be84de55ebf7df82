//! Shrinks a script or an input on which the two differ.

use crate::generate::{call, Lines};
use twin::hall::escape;

/// So many trials at most.
const TRIALS: usize = 4000;

pub struct Shrinker<'a> {
    differs: &'a dyn Fn(&[Vec<u8>]) -> bool,
    left: usize,
}

impl<'a> Shrinker<'a> {
    pub fn new(differs: &'a dyn Fn(&[Vec<u8>]) -> bool) -> Self {
        Shrinker { differs, left: TRIALS }
    }

    pub fn shrink(&mut self, mut lines: Lines) -> Lines {
        self.drop_lines(&mut lines);
        self.split_runs(&mut lines);
        self.drop_lines(&mut lines);
        self.shorten_bytes(&mut lines);
        self.drop_lines(&mut lines);
        lines
    }

    /// Drops commands of an input; makes others, without which the rest
    /// would stand elsewhere, blank ones of the same length; drops bytes.
    pub fn shrink_input(&mut self, input: Vec<u8>) -> Vec<u8> {
        let ends = |&byte: &u8| byte == b';' || byte == b'\n';
        let mut commands: Lines = input.split_inclusive(ends).map(<[u8]>::to_vec).collect();
        self.drop_lines(&mut commands);
        for at in 0..commands.len() {
            let blank = vec![b';'; commands[at].len()];
            let command = std::mem::replace(&mut commands[at], blank);
            if !self.still_differs(&commands) {
                commands[at] = command;
            }
        }
        let mut bytes = commands.concat();
        self.drop_pieces(&mut bytes, &mut |shrinker, shorter| {
            shrinker.still_differs(&[shorter.to_vec()])
        });
        bytes
    }

    fn still_differs(&mut self, lines: &[Vec<u8>]) -> bool {
        if self.left == 0 {
            return false;
        }
        self.left -= 1;
        (self.differs)(lines)
    }

    /// Drops pieces of a list, large ones first, while `keeps` still holds.
    fn drop_pieces<T: Clone>(
        &mut self,
        list: &mut Vec<T>,
        keeps: &mut dyn FnMut(&mut Self, &[T]) -> bool,
    ) {
        let mut size = list.len().div_ceil(2).max(1);
        loop {
            let mut at = 0;
            while at < list.len() {
                let mut shorter = list.clone();
                shorter.drain(at..(at + size).min(list.len()));
                if keeps(self, &shorter) {
                    *list = shorter;
                } else {
                    at += size;
                }
            }
            if size == 1 {
                return;
            }
            size = size.div_ceil(2);
        }
    }

    fn drop_lines(&mut self, lines: &mut Lines) {
        self.drop_pieces(lines, &mut |shrinker, shorter| shrinker.still_differs(shorter));
    }

    /// Tries each serving run as commands obeyed one by one.
    fn split_runs(&mut self, lines: &mut Lines) {
        let mut at = 0;
        while at < lines.len() {
            if let Some((name, _, bytes)) = parts(&lines[at]) {
                if name == "serve" {
                    let mut other = lines.clone();
                    let obeyed = bytes.split(|&byte| byte == b';' || byte == b'\n');
                    other.splice(at..=at, obeyed.map(|command| call("obey", 1088, command)));
                    if self.still_differs(&other) {
                        *lines = other;
                    }
                }
            }
            at += 1;
        }
    }

    fn shorten_bytes(&mut self, lines: &mut Lines) {
        for at in 0..lines.len() {
            let Some((name, room, mut bytes)) = parts(&lines[at]) else {
                continue;
            };
            let mut whole = lines.clone();
            self.drop_pieces(&mut bytes, &mut |shrinker, shorter| {
                whole[at] = call(&name, room, shorter);
                shrinker.still_differs(&whole)
            });
            lines[at] = call(&name, room, &bytes);
        }
    }
}

/// Name, room and bytes of an obey or serve line.
pub fn parts(line: &[u8]) -> Option<(String, usize, Vec<u8>)> {
    let mut words = line.splitn(3, |&byte| byte == b' ');
    let name = std::str::from_utf8(words.next()?).ok()?;
    if name != "obey" && name != "serve" {
        return None;
    }
    let room = std::str::from_utf8(words.next()?).ok()?.parse().ok()?;
    Some((name.to_string(), room, escape::read(words.next()?)?))
}
