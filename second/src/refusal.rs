//! Refusals: one triple for each layer that has something to say, the outermost first.

#[derive(Clone, Copy, PartialEq, Eq, Debug)]
pub struct Triple {
    pub layer: u64,
    pub number: u64,
    pub place: u64,
}

#[derive(Clone, PartialEq, Eq, Debug)]
pub struct Refusal(pub Vec<Triple>);

pub const GRAPH: u64 = 1;
pub const READER: u64 = 2;
pub const MACHINE: u64 = 3;
pub const CHECKER: u64 = 4;
pub const PROGRAM: u64 = 5;

impl Refusal {
    pub fn new(layer: u64, number: u64, place: u64) -> Refusal {
        Refusal(vec![Triple { layer, number, place }])
    }

    /// The same number repeated by the layer above, at its own place; what was below stays below.
    pub fn under(self, layer: u64, place: u64) -> Refusal {
        let mut all = vec![Triple { layer, number: self.number(), place }];
        all.extend(self.0);
        Refusal(all)
    }

    pub fn layer(&self) -> u64 {
        self.0[0].layer
    }

    pub fn number(&self) -> u64 {
        self.0[0].number
    }

    pub fn place(&self) -> u64 {
        self.0[0].place
    }

    /// The refusal line, with its newline.
    pub fn line(&self) -> String {
        let mut text = String::from("refused");
        for t in &self.0 {
            text.push_str(&format!(" {} {} {}", t.layer, t.number, t.place));
        }
        text.push('\n');
        text
    }
}
