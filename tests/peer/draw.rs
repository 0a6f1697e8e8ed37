//! The drawer: a script that runs the model along, so that each scene can look at the state and
//! go where something happens. Every element of a script is exactly one request.

use crate::commands::TABLE_1;
use crate::device::{Device, Mode};
use crate::draw_text::decorate;
use crate::random::Random;
use crate::said::Model;
use crate::script::Session;

pub struct Drawer {
    pub random: Random,
    pub script: Vec<String>,
    session: Session,
    /// No request is said any more once there are so many.
    pub goal: usize,
}

type Scene = fn(&mut Drawer);

/// Scenes with their weights. Each script multiplies the weights by small numbers of its own, zero
/// among them: a script without reads fills its queues, one without resets goes deep.
const SCENES: [(Scene, usize); 25] = [
    (Drawer::arrivals, 6),
    (Drawer::set_filters, 3),
    (Drawer::filtered_arrivals, 7),
    (Drawer::full_queue, 9),
    (Drawer::equal_frames, 10),
    (Drawer::load_messages, 5),
    (Drawer::send, 12),
    (Drawer::send_in_loopback, 5),
    (Drawer::one_shot, 3),
    (Drawer::left_alone, 18),
    (Drawer::full_history, 2),
    (Drawer::count_errors, 6),
    (Drawer::go_bus_off, 2),
    (Drawer::recessive_groups, 2),
    (Drawer::change_mode, 4),
    (Drawer::sleep, 5),
    (Drawer::initialization_again, 6),
    (Drawer::commands_asleep, 7),
    (Drawer::enable_pins, 4),
    (Drawer::pass_time, 2),
    (Drawer::drain, 3),
    (Drawer::reset, 2),
    (Drawer::malformed_transfers, 6),
    (Drawer::impossible_event, 3),
    (Drawer::anything, 5),
];

/// How much a script likes each scene.
pub type Habits = [usize; SCENES.len()];

/// Reads that leave everything as it is.
const PEEKS: [u8; 24] = [
    0xE2, 0xDA, 0xE2, 0xDA, 0xD2, 0xD4, 0xEA, 0xEC, 0xF8, 0xFA, 0x42, 0x44, 0xD6, 0xD8, 0xE4, 0xE6,
    0xE8, 0xA2, 0xB2, 0xAC, 0xB4, 0xC4, 0xBC, 0xE2,
];
pub const FIFO_READS: [u8; 4] = [0x46, 0x48, 0x4A, 0x4C];

/// A script of that many requests. Its last part looks at all that is left in the device.
pub fn draw(seed: u64, requests: usize) -> Vec<String> {
    let mut drawer = Drawer::new(seed, requests);
    let habits = drawer.habits();
    let body = if requests > 120 {
        requests - 45
    } else {
        requests
    };
    drawer.look_at_numbers(20);
    // A fresh device's filters match every frame, so they tell little before they are written.
    if drawer.random.chance(50) {
        drawer.set_filters();
    }
    drawer.play(&habits, body);
    drawer.look_at_everything();
    while drawer.script.len() < requests {
        drawer.anything();
    }
    drawer.script
}

pub fn text(script: &[String]) -> String {
    script
        .iter()
        .fold(String::new(), |text, line| text + line + "\n")
}

impl Drawer {
    pub fn new(seed: u64, goal: usize) -> Drawer {
        Drawer {
            random: Random::new(seed),
            script: Vec::new(),
            session: Session::fresh(),
            goal,
        }
    }

    pub fn habits(&mut self) -> Habits {
        SCENES.map(|(_, weight)| weight * self.random.pick(&[0, 1, 1, 1, 3]))
    }

    /// Scenes, until there are so many requests.
    pub fn play(&mut self, habits: &Habits, requests: usize) {
        while self.script.len() < requests {
            self.leave_dead_end();
            self.scene(habits);
            for _ in 0..self.random.pick(&[0, 0, 1, 1, 2]) {
                self.peek();
            }
        }
    }

    pub fn device(&self) -> &Device {
        &self.session.device
    }

    pub fn finished(&self) -> bool {
        self.script.len() >= self.goal
    }

    pub fn say(&mut self, line: &str) {
        if self.finished() {
            return;
        }
        let line = decorate(&mut self.random, line);
        for byte in line.bytes().chain([b'\n']) {
            self.session.byte(byte);
        }
        self.script.push(line);
    }

    pub fn say_any(&mut self, lines: &[&str]) {
        let line = self.random.pick(lines);
        self.say(line);
    }

    pub fn spi(&mut self, bytes: &[u8]) {
        let row = TABLE_1.iter().find(|&&(command, ..)| command == bytes[0]);
        let reply = row.map_or(0, |&(_, _, reply, _)| reply);
        let room = match self.random.below(25) {
            0 => format!("/{}", reply),
            1 => format!("/{}", reply.saturating_sub(1)),
            _ => String::new(),
        };
        let bytes: String = bytes.iter().map(|byte| format!(" {:02X}", byte)).collect();
        self.say(&format!("spi{}{}", room, bytes));
    }

    pub fn peek(&mut self) {
        match self.random.below(10) {
            0 | 1 => self.say("pins"),
            2 | 3 => self.say("numbers"),
            4 => self.ask_filters(),
            _ => {
                let code = self.random.pick(&PEEKS);
                self.spi(&[code]);
            }
        }
    }

    /// Most of these reads, any of them first, since one may take what another would show.
    pub fn look_at(&mut self, codes: &[u8]) {
        let first = self.random.below(codes.len());
        for place in first..first + codes.len() {
            if self.random.chance(65) {
                self.spi(&[codes[place % codes.len()]]);
            }
        }
    }

    fn scene(&mut self, habits: &Habits) {
        let total: usize = habits.iter().sum();
        let mut place = self.random.below(total + 1);
        for (&(scene, _), &weight) in SCENES.iter().zip(habits) {
            if place < weight {
                return scene(self);
            }
            place -= weight;
        }
        self.anything();
    }

    /// Initialization, sleep and bus off let little happen, so they are mostly left soon.
    fn leave_dead_end(&mut self) {
        let stuck = matches!(self.device().acting, Mode::Initialization | Mode::Sleep);
        if stuck && self.random.chance(60) {
            let mode = self.random.pick(&[0x00, 0x00, 0x00, 0x20, 0x20, 0x40]);
            self.ctrl0(mode);
        }
        if self.device().bus_off && self.random.chance(25) {
            self.recessive_groups();
        }
    }

    /// Writes MODE, with the other bits of CTRL0 drawn but for RESET.
    pub fn ctrl0(&mut self, mode: u8) {
        let others = self.random.pick(&[0x00, 0x10, 0x04, 0x14, 0x03, 0x17]);
        self.spi(&[0x14, mode | others]);
    }

    pub fn look_at_everything(&mut self) {
        for code in [0xD2, 0xDA, 0xDC, 0xDE, 0xE2, 0xEA, 0xEC, 0xF8, 0xFA, 0x42] {
            self.spi(&[code]);
        }
        let rest = [0xD4, 0xD6, 0xD8, 0xE4, 0xE6, 0xE8, 0xA4, 0xBE];
        for code in rest {
            self.spi(&[code]);
        }
        self.say("pins");
        self.say("numbers");
        self.drain();
        // What waits to be sent shows only when it goes round.
        self.spi(&[0x14, 0x20]);
        self.spi(&[0x16, 0x80]);
        while !self.device().transmit_fifo.is_empty() && !self.device().bus_off && !self.finished()
        {
            self.say("begin");
            self.say("done");
            self.spi(&[0x46]);
            self.spi(&[0xEE]);
        }
    }
}
