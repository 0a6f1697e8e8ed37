//! What a program says to a script, line by line, and how much of each line is fixed.

/// One line of output.
pub struct Said {
    start: String,
    words: Words,
    end: String,
}

/// What stands between a line's start and its end.
enum Words {
    None,
    /// Any others would do as well.
    Free(&'static str),
    /// Any others would do that have these among them.
    Needed(String),
}

/// A program that reads a script, told byte by byte.
pub trait Model {
    /// The line that is said, if this byte brings one about.
    fn byte(&mut self, byte: u8) -> Option<Said>;

    /// Of the end of the input, where the last line may lack its newline.
    fn end(&mut self) -> Vec<Said>;
}

impl Words {
    fn text(&self) -> &str {
        match self {
            Words::None => "",
            Words::Free(words) => words,
            Words::Needed(words) => words,
        }
    }
}

impl Said {
    pub fn exactly(text: String) -> Said {
        Said {
            start: text,
            words: Words::None,
            end: String::new(),
        }
    }

    pub fn freely(start: String, words: &'static str, end: String) -> Said {
        Said {
            start,
            words: Words::Free(words),
            end,
        }
    }

    /// The free words have to have these.
    pub fn with(self, words: String) -> Said {
        Said {
            words: Words::Needed(words),
            ..self
        }
    }

    pub fn after(self, mark: &str) -> Said {
        Said {
            start: mark.to_string() + &self.start,
            ..self
        }
    }

    pub fn text(&self) -> String {
        self.start.clone() + self.words.text() + &self.end
    }

    /// Whether the program's line is this one; free words may not be left out.
    pub fn agrees(&self, program: &[u8]) -> bool {
        let needed = match &self.words {
            Words::None => return program == self.start.as_bytes(),
            Words::Free(_) => "",
            Words::Needed(words) => words,
        };
        program.len() > self.start.len() + self.end.len()
            && program.starts_with(self.start.as_bytes())
            && program.ends_with(self.end.as_bytes())
            && String::from_utf8_lossy(program).contains(needed)
    }
}

/// All that is said to a script.
pub fn said_to(mut model: impl Model, script: &[u8]) -> Vec<Said> {
    let mut said: Vec<Said> = script.iter().filter_map(|&b| model.byte(b)).collect();
    said.extend(model.end());
    said
}
