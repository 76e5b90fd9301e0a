//! What the tests share: the gallery of examples, and numbers that look random.
#![allow(dead_code)]
use std::fs;
use std::path::{Path, PathBuf};

/// The folder of the repository's examples.
pub fn examples() -> PathBuf {
    Path::new(env!("CARGO_MANIFEST_DIR")).join("../../../examples")
}

/// A text of the gallery.
pub fn example(name: &str) -> Vec<u8> {
    fs::read(examples().join(name)).unwrap()
}

/// The names of the gallery's texts, in order.
pub fn gallery() -> Vec<String> {
    let files = fs::read_dir(examples()).unwrap();
    let names = files.map(|it| it.unwrap().file_name().into_string().unwrap());
    let mut texts: Vec<String> = names
        .filter(|it| it.ends_with(".pram") || it.ends_with(".pardo"))
        .collect();
    texts.sort();
    assert!(texts.len() > 30);
    texts
}

/// Where the gallery keeps what is printed of a text: `sum.out`, `sum.pardo.out`.
pub fn beside(name: &str, ending: &str) -> String {
    let stem = name.strip_suffix(".pram").unwrap_or(name);
    fs::read_to_string(examples().join(format!("{stem}.{ending}"))).unwrap()
}

/// Numbers that look random, the same ones for a seed.
pub struct Random(u64);

impl Random {
    pub fn new(seed: u64) -> Random {
        Random(seed.wrapping_mul(0x9e37_79b9_7f4a_7c15) | 1)
    }

    fn next(&mut self) -> u64 {
        self.0 ^= self.0 << 13;
        self.0 ^= self.0 >> 7;
        self.0 ^= self.0 << 17;
        self.0.wrapping_mul(0x2545_f491_4f6c_dd1d) >> 33
    }

    /// One below the bound.
    pub fn below(&mut self, bound: u32) -> u32 {
        (self.next() % u64::from(bound)) as u32
    }

    pub fn of<'a, T>(&mut self, choices: &'a [T]) -> &'a T {
        &choices[self.below(choices.len() as u32) as usize]
    }

    /// Whether something happens that does once in so many times.
    pub fn once_in(&mut self, times: u32) -> bool {
        self.below(times) == 0
    }
}

/// A job with code that looks random: conflicts, losses and endless loops among it.
pub fn random_job(random: &mut Random) -> String {
    let (cells, processors) = (1 + random.below(24), 1 + random.below(24));
    let (steps, code) = (random.below(24), 1 + random.below(16));
    let rule = random.of(&["common", "priority", "priority", "crew"]);
    let mut text = format!(
        "pram 3\ncells {cells}\nprocs {processors}\nsteps {steps}\nrule {rule}\ncode\npid r3\n"
    );
    for at in 0..code {
        text.push_str(&format!("L{at}: {}\n", instruction(random, cells, code)));
    }
    text
}

fn instruction(random: &mut Random, cells: u32, code: u32) -> String {
    let [a, b, c] = [0; 3].map(|_| random.below(4));
    let number = random.below(cells + 2);
    match random.below(12) {
        0 => format!("set r{a} {number}"),
        1 => format!("jz r{a} L{}", random.below(code)),
        2 => format!("st {number} r{a}"),
        3 => format!("ld r{a} {number}"),
        4 | 5 => format!("st r{a} r{b}"),
        6 | 7 => format!("ld r{a} r{b}"),
        8 => format!("add r{a} r{b} {number}"),
        _ => {
            let name = random.of(&["add", "sub", "mul", "xor", "and", "or", "lt", "eq", "shl"]);
            format!("{name} r{a} r{b} r{c}")
        }
    }
}
