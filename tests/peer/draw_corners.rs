//! Corners that the other scenes seldom reach: a message that 0x54 left alone, initialization written while it
//! acts, and commands while asleep. A mistake there shows in few places, so looks at these follow each step.

use crate::device::Mode;
use crate::draw::Drawer;

/// Where the end of a message shows.
const OF_A_MESSAGE: [u8; 9] = [0xDA, 0xE2, 0xD4, 0xDE, 0xEC, 0xEE, 0xDC, 0xD2, 0x46];
/// Where it shows when a change of mode takes too much away.
const OF_A_MODE: [u8; 10] = [0xE2, 0xDA, 0xD4, 0xDC, 0xEA, 0xEC, 0xD6, 0xD8, 0xEE, 0x42];
/// Pairs of a command that acts in every mode and the read that shows what it did.
const ANYWHERE: [u8; 32] = [
    0x16, 0xD4, 0x1C, 0xE4, 0x1E, 0xE6, 0x22, 0xE8, 0x24, 0xEA, 0x26, 0xEC, 0x26, 0xEC, 0x58, 0xFA,
    0x5A, 0xE2, 0x5A, 0x46, 0x46, 0xE2, 0x4C, 0x48, 0xEE, 0xEE, 0xDC, 0xDC, 0xDC, 0xDC, 0xDE, 0xDE,
];

impl Drawer {
    /// 0x54 takes only the place of a message that runs: it is sent like any other, and what comes into the FIFO
    /// meanwhile must not be taken for it.
    pub fn left_alone(&mut self) {
        // TEC where a step down shows, and where a step up may be bus off.
        self.test_write(0x26, &[1, 96, 128, 250, 250]);
        self.start();
        self.spi(&[0x54]);
        if self.device().running.is_none() {
            return;
        }
        self.look_at(&[0xDE, 0xD4]);
        let sleep_waits = self.random.chance(40);
        if sleep_waits {
            self.ctrl0(0x60);
            self.say("quiet");
            self.spi(&[0xDE]);
        }
        // A new message would go on holding sleep off.
        if self.random.chance(if sleep_waits { 25 } else { 60 }) {
            self.load_one();
        }
        if self.random.chance(65) {
            let value = self.random.pick(&[0x40, 0x60, 0xC0, 0xE0]);
            self.ctrl1(value);
        }
        if self.random.chance(65) {
            self.while_alone();
        }
        self.look_at(&[0xDA, 0xE2]);
        if sleep_waits && self.random.chance(35) {
            self.say("done");
        } else {
            self.end_alone();
        }
        self.look_at(&OF_A_MESSAGE);
        if self.random.chance(40) {
            self.say_any(&["done", "quiet", "activity"]);
            self.one_arrival();
        }
        self.send_what_waits();
    }

    fn while_alone(&mut self) {
        match self.random.below(15) {
            0..=2 => {
                // The acting mode itself.
                self.ctrl0((self.device().acting as u8) << 5);
                self.look_at(&[0xDE, 0xD4]);
            }
            3 | 4 => self.spi(&[0x54]),
            5 => self.say("txen 0"),
            6 | 7 => self.ctrl1(0x00),
            8 => self.enable(),
            9..=11 => self.load_messages(),
            12 => self.pass_time(),
            _ => self.say("begin"),
        }
    }

    fn end_alone(&mut self) {
        match self.random.below(24) {
            0..=7 => self.say("done"),
            8..=10 => self.say_error("txerr", " counted"),
            11 => self.say_error("txerr", " exempt"),
            12..=14 => self.say("lost"),
            15..=17 => self.spi(&[0x52]),
            18 | 19 => self.reset_once(),
            _ => self.change_mode(),
        }
    }

    /// Written while initialization acts, 1xx withdraws a waiting sleep and sets the byte's other bits, no more.
    pub fn initialization_again(&mut self) {
        if self.random.chance(60) {
            self.something_to_lose();
        }
        if self.random.chance(60) {
            self.start();
        }
        if self.random.chance(35) {
            self.spi(&[0x54]);
            self.while_alone();
        }
        if self.random.chance(25) {
            self.ctrl0(0x60);
        }
        for _ in 0..self.random.between(2, 4) {
            let mode = self.random.pick(&[0x80, 0xA0, 0xC0, 0xE0]);
            self.ctrl0(mode);
            self.look_at(&[0xD2, 0xDE, 0xE2]);
            self.while_initializing();
        }
        self.look_at(&OF_A_MODE);
        self.send_what_waits();
    }

    fn while_initializing(&mut self) {
        if self.random.chance(40) {
            // It waits, and initialization acts, until the bus is quiet and no message waits.
            self.ctrl0(0x60);
            self.say_any(&["quiet", "activity", "spi D2"]);
        }
        match self.random.below(14) {
            0..=3 => self.locked_write(),
            4..=8 => self.command_and_look(),
            9 => self.tune_filters(),
            10 => self.load_one(),
            11 => self.one_arrival(),
            12 => self.say_error("rxerr", ""),
            _ => self.say_any(&["begin", "done", "ticks 9"]),
        }
        self.look_at(&[0xD2, 0xDE, 0xFA]);
    }

    /// Asleep no frame is taken and none sent, but to the host the device is as it was.
    pub fn commands_asleep(&mut self) {
        if self.random.chance(60) {
            self.something_to_lose();
        }
        if self.random.chance(15) {
            self.spi(&[0x26, 0xFF]);
            self.start();
            self.say_error("txerr", " counted");
        }
        if self.device().messages_to_send() > 0 {
            self.spi(&[0x54]);
            self.say("done");
        }
        self.ctrl0(0x60);
        if self.random.chance(30) {
            self.stir();
        }
        self.say("quiet");
        self.say_any(&["spi D2", "spi DE", "pins"]);
        for _ in 0..self.random.between(4, 8) {
            self.command_and_look();
        }
        self.say_any(&["spi 14 60", "spi 14 70", "spi 14 74", "spi 14 77"]);
        for _ in 0..3 {
            if self.device().acting == Mode::Sleep {
                self.stir();
            }
        }
        self.one_arrival();
        self.send_what_waits();
    }

    fn command_and_look(&mut self) {
        match self.random.below(15) {
            0..=5 => {
                let place = 2 * self.random.below(ANYWHERE.len() / 2);
                self.command(ANYWHERE[place]);
                self.spi(&[ANYWHERE[place + 1]]);
            }
            6 => {
                self.load_one();
                self.enable();
                self.say_any(&["begin", "spi 52", "spi 54"]);
                self.look_at(&[0xD4, 0xE2, 0xDA, 0xDE]);
            }
            7 | 8 => self.locked_write(),
            9 | 10 => {
                self.ctrl0(0x60);
                self.look_at(&[0xD2, 0xDE]);
            }
            11 => self.enable_pins(),
            12 => self.turn_txen_pin(),
            13 => self.ask_filters(),
            _ => {
                self.say_any(&["recessive", "quiet", "ticks 9"]);
                self.look_at(&[0xDE, 0xF8, 0xFA]);
            }
        }
    }

    /// What may end a sleep; what comes from the bus ends none that only waits.
    fn stir(&mut self) {
        match self.random.below(12) {
            0..=2 => self.say("activity"),
            3..=5 => self.one_arrival(),
            6 => self.impossible_event(),
            7..=9 => self.reset_once(),
            _ => self.change_mode(),
        }
        self.look_at_numbers(20);
        self.look_at(&[0xD2, 0xDE, 0xE2, 0xD4, 0x42]);
    }
}
