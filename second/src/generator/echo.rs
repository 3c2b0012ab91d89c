//! Stretches of lines with echo on, where lines without a reply and lines that are too long show too.

use super::{rubbish, Generator};

impl Generator {
    /// Echo on, lines of every sort, and mostly echo off.
    pub fn echo_stretch(&mut self) {
        self.echo("on");
        for _ in 0..self.random.below(20) {
            self.echoed_line();
        }
        if !self.random.one_in(8) {
            self.echo("off");
        }
    }

    /// Now and then by a repeat.
    pub fn echo(&mut self, to: &str) {
        let repeated = self.random.one_in(6);
        self.repeat = repeated.then_some(1 + self.random.below(4));
        self.say(&format!("echo {to}"));
        self.repeat = None;
    }

    fn echoed_line(&mut self) {
        match self.random.weighted(&[12, 4, 4, 3, 8, 8, 2, 2, 2, 2, 2, 1]) {
            0 => self.table_call(),
            1 => self.element_line(),
            2 => self.repeated(),
            3 => self.look_or_reset(),
            4 => self.bad_line(),
            5 => self.passed_over(),
            6 => self.long_line(),
            7 => self.bad_echo(),
            8 => self.portion_call(),
            9 => self.message_call(),
            10 => self.list_call(),
            _ => self.echo("on"),
        }
    }

    fn long_line(&mut self) {
        let line = rubbish::long_line(&mut self.random);
        self.raw(&line);
    }

    fn bad_echo(&mut self) {
        let line = rubbish::bad_echo(&mut self.random);
        self.say(line);
    }
}
