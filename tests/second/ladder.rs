//! Ladders in readable notation, turned into sheets: names, `!`, `&`, `|`,
//! brackets, `0` and `1`. A slip in the notation panics: it is for tests only.

use crate::make::encode;

/// Inputs and coils by name, in the order of their numbers.
pub struct Names {
    inputs: Vec<String>,
    coils: Vec<String>,
}

impl Names {
    /// Names parted by blanks.
    pub fn new(inputs: &str, coils: &str) -> Names {
        let words = |text: &str| text.split_whitespace().map(str::to_string).collect();
        Names {
            inputs: words(inputs),
            coils: words(coils),
        }
    }

    /// A whole sheet; `on` names the coils that start on.
    pub fn sheet(&self, on: &str, rungs: &[(&str, &str)], condition: &str) -> Vec<u8> {
        let mut sheet = encode::head(self.inputs.len(), self.coils.len(), rungs.len());
        let mut on: Vec<usize> = on.split_whitespace().map(|name| self.coil(name)).collect();
        on.sort();
        for coil in on {
            sheet.extend(encode::start(coil, 1));
        }
        for (coil, text) in rungs {
            sheet.extend(self.formula(text));
            sheet.extend(encode::rung(self.coil(coil)));
        }
        sheet.extend(self.formula(condition));
        sheet.extend(encode::end_of_sheet());
        sheet
    }

    /// The formula records of a formula.
    pub fn formula(&self, text: &str) -> Vec<u8> {
        let mut parser = Parser {
            names: self,
            rest: text,
            records: Vec::new(),
        };
        parser.or();
        assert!(
            parser.peek().is_none(),
            "{text}: left over: {}",
            parser.rest
        );
        parser.records
    }

    fn coil(&self, name: &str) -> usize {
        find(&self.coils, name).unwrap_or_else(|| panic!("no coil {name}"))
    }

    fn contact(&self, name: &str) -> Vec<u8> {
        match find(&self.inputs, name) {
            Some(input) => encode::input(input),
            None => encode::coil(self.coil(name)),
        }
    }
}

fn find(names: &[String], name: &str) -> Option<usize> {
    names.iter().position(|known| known == name)
}

struct Parser<'a> {
    names: &'a Names,
    rest: &'a str,
    records: Vec<u8>,
}

impl Parser<'_> {
    fn or(&mut self) {
        self.and();
        while self.eat('|') {
            self.and();
            self.records.push(crate::records::OR);
        }
    }

    fn and(&mut self) {
        self.not();
        while self.eat('&') {
            self.not();
            self.records.push(crate::records::AND);
        }
    }

    fn not(&mut self) {
        if self.eat('!') {
            self.not();
            self.records.push(crate::records::NOT);
        } else if self.eat('(') {
            self.or();
            assert!(self.eat(')'), "bracket missing before: {}", self.rest);
        } else {
            self.leaf();
        }
    }

    fn leaf(&mut self) {
        self.peek();
        let end = self
            .rest
            .find(|c: char| !c.is_ascii_alphanumeric())
            .unwrap_or(self.rest.len());
        let (word, rest) = self.rest.split_at(end);
        self.rest = rest;
        let records = match word {
            "0" => encode::constant(0),
            "1" => encode::constant(1),
            name => self.names.contact(name),
        };
        self.records.extend(records);
    }

    fn eat(&mut self, wanted: char) -> bool {
        let found = self.peek() == Some(wanted);
        if found {
            self.rest = &self.rest[1..];
        }
        found
    }

    fn peek(&mut self) -> Option<char> {
        self.rest = self.rest.trim_start();
        self.rest.chars().next()
    }
}
