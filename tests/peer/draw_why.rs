//! Scripts for `why`: a device in some state, filters that nearly match, and a frame at the end, or else.

use crate::device::{CTRL1_FILTON, ROOM};
use crate::draw::Drawer;
use crate::draw_text::{decorate, Words};
use crate::frame::Frame;
use crate::random::Random;
use crate::said::said_to;
use crate::tally::outcome;
use crate::why::Why;

const OTHER_REQUESTS: [&str; 12] = [
    "pins",
    "spi D2",
    "spi",
    "spi 46",
    "spi FF",
    "mr",
    "quiet",
    "done",
    "rxerr bit",
    "ticks 70000",
    "hits 123 std data 2 AA 55",
    "hits 800 std data 0",
];
const PASSED_OVER: [&str; 7] = [
    "",
    "",
    "   ",
    "\t\r",
    "#",
    "# frame 7 std data 0 ack",
    "\t # spi 56",
];

/// Newlines stand between the elements, so that a script without one at its end can be drawn too.
pub fn why_text(script: &[String]) -> String {
    script.join("\n")
}

/// So many scripts in a row have every outcome among them.
pub const ROUND: u64 = 25;
/// More than any outcome needs.
const TRIES: usize = 1000;

fn wished(seed: u64) -> &'static str {
    match seed % ROUND {
        0..=8 => "A4",
        9 | 10 => "Queued",
        11 | 12 => "A1",
        13 | 14 => "A2",
        15 | 16 => "A3",
        17 => "Queued-over std",
        18 => "Queued-over ext",
        19..=21 => "8",
        22 => "read another request",
        23 => "read a line that can't be read",
        _ => "read the end of the script",
    }
}

/// The seed's place in its round tells what the script comes to.
pub fn draw_why(seed: u64) -> Vec<String> {
    let mut random = Random::new(seed);
    let mut drawn = (0..TRIES).map(|_| any_script(random.bits()));
    let said = |script: &[String]| said_to(Why::fresh(), why_text(script).as_bytes());
    let found = drawn.find(|script| outcome(&said(script)) == wished(seed));
    found.expect("one of so many comes to what is wished")
}

fn any_script(seed: u64) -> Vec<String> {
    let mut drawer = Drawer::new(seed, 0);
    if drawer.random.chance(97) {
        drawer.live_before();
        let frame = drawer.set_table();
        drawer.disturb();
        drawer.let_some_wait();
        drawer.turn_filtering();
        drawer.disturb();
        drawer.enter_state();
        drawer.disturb();
        drawer.last_line(&frame);
    }
    drawer.pass_over();
    drawer.script
}

impl Drawer {
    /// Some scripts begin with what the scenes for `face` bring about.
    fn live_before(&mut self) {
        self.goal = self.random.pick(&[0, 0, 5, 12]);
        let habits = self.habits();
        self.play(&habits, self.goal);
        self.goal = usize::MAX;
    }

    /// Where more came than there is room for, the latest has itself taken another's place.
    fn let_some_wait(&mut self) {
        let arrivals = self.random.pick(&[ROOM, ROOM, ROOM + 2, ROOM - 1]);
        if self.random.chance(45) {
            self.fill_queue(arrivals);
        }
    }

    pub fn turn_filtering(&mut self) {
        let others = self.random.pick(&[0x00, 0x00, 0x80, 0x4F]);
        let on = self.random.chance(90);
        self.spi(&[0x16, others | if on { CTRL1_FILTON } else { 0 }]);
    }

    pub fn enter_state(&mut self) {
        match self.random.below(11) {
            0 => self.ctrl0(0x80),
            1 => self.ctrl0(0x20),
            2 => self.fall_asleep(),
            3 => {
                self.fall_asleep();
                self.say("activity");
                self.one_arrival();
            }
            4 => {
                // A message that waits holds sleep off, whatever MODE says.
                let mode = self.random.pick(&[0x00, 0x40]);
                self.ctrl0(mode);
                self.load_one();
                self.ctrl0(0x60);
                self.say("quiet");
            }
            5 | 6 => self.lose_the_bus(),
            7 | 8 => self.ctrl0(0x40),
            _ => self.ctrl0(0x00),
        }
    }

    /// With WAKEUP or without: CTRL0's other bits are drawn.
    fn fall_asleep(&mut self) {
        self.spi(&[0x52]);
        self.spi(&[0x54]);
        self.ctrl0(0x60);
        self.say("quiet");
    }

    fn lose_the_bus(&mut self) {
        self.ctrl0(0x00);
        for _ in 0..3 {
            if !self.device().bus_off {
                self.spi(&[0x26, 0xFF]);
                self.start();
                self.say_error("txerr", " counted");
            }
        }
        let mode = self.random.pick(&[0x00, 0x00, 0x40, 0x40, 0x40, 0x20]);
        self.ctrl0(mode);
    }

    /// Mostly what is told with its line, and some that must be passed over in silence.
    fn disturb(&mut self) {
        for _ in 0..self.random.pick(&[0, 0, 0, 1, 2]) {
            match self.random.below(8) {
                0 if self.random.chance(10) => {
                    let line = self.stretched("spi D2");
                    self.say(&line);
                }
                0 | 1 => {
                    let line = self.unreadable_line();
                    self.say(line);
                }
                2 => self.malformed_transfers(),
                3 => self.impossible_event(),
                4 => self.locked_write(),
                5 => self.say_any(&["spi EE", "begin", "spi", "hits 800 std data 0"]),
                6 => self.ask_filters(),
                _ => self.peek(),
            }
        }
    }

    /// It is not done, so the drawer's own device never sees it.
    fn last_line(&mut self, frame: &Frame) {
        let acknowledged = self.random.chance(50);
        let frame = Words::of(frame).arriving(acknowledged);
        let line = match self.random.below(100) {
            0..=8 => self.impossible_frame().arriving(acknowledged),
            9 => self.stretched(&frame),
            10..=12 => self.unreadable_line().to_string(),
            13 => "numbers".to_string(),
            14 | 15 => self.random.pick(&OTHER_REQUESTS).to_string(),
            _ => frame,
        };
        let line = decorate(&mut self.random, &line);
        self.script.push(line);
    }

    fn pass_over(&mut self) {
        for _ in 0..self.random.pick(&[0, 0, 0, 1, 3]) {
            let line = self.random.pick(&PASSED_OVER);
            self.script.push(line.to_string());
        }
        if self.random.chance(80) {
            // The last newline.
            self.script.push(String::new());
        }
    }
}
