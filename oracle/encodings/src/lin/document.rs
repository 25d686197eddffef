//! Stand-in for the original `lin/document.rs`, which could not be had: a text
//! as its pairs of command and value.

#[derive(Debug, Clone, PartialEq, Eq)]
pub struct LinToken {
    command: String,
    /// As written.
    pub value: String,
}

impl LinToken {
    /// The command without the white space around it.
    pub fn command(&self) -> &str {
        self.command.trim()
    }

    /// Whether the command is this one, in either case.
    pub fn is(&self, name: &str) -> bool {
        self.command().eq_ignore_ascii_case(name)
    }
}

#[derive(Debug, Clone, PartialEq, Eq)]
pub struct LinDocument {
    pub tokens: Vec<LinToken>,
}

impl LinDocument {
    /// The text is cut at every `|`. A last value needs no `|` behind it; a last
    /// command without a value is no token. There are no escapes.
    pub fn parse(text: &str) -> Self {
        let mut pieces = text.split('|');
        let mut tokens = Vec::new();
        while let (Some(command), Some(value)) = (pieces.next(), pieces.next()) {
            tokens.push(LinToken {
                command: command.to_string(),
                value: value.to_string(),
            });
        }
        LinDocument { tokens }
    }
}
