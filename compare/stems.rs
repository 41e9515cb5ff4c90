//! The last words of Ukrainian ordinals in school without their endings, taken from what is
//! expected of the spelling calls. The signs are the Rust's.

use crate::expect;
use crate::kinds::{Kind, Manner, Settings, PORTED};
use std::collections::HashMap;

/// Orders of Ukrainian groups.
const ORDERS: usize = 22;

/// What a last word adds: a group at an order. Zero is one at order 0.
#[derive(Clone, Copy, PartialEq, Debug)]
pub struct Stem {
    pub order: usize,
    pub group: u32,
}

pub struct Stems {
    stems: HashMap<String, Stem>,
    /// The hard and the soft ending in each of the Rust's settings.
    endings: HashMap<[u32; PORTED], [String; 2]>,
}

impl Stems {
    pub fn new() -> Self {
        let mut stems = Stems { stems: HashMap::new(), endings: endings() };
        for group in 0..1000 {
            stems.learn(&group.to_string(), 0, group);
            for order in (1..ORDERS).filter(|_| group > 0) {
                stems.learn(&format!("{group}{}", "000".repeat(order)), order, group);
            }
        }
        // A lone scale is not counted; below another group it is.
        for order in 1..ORDERS - 1 {
            stems.learn(&format!("1001{}", "000".repeat(order)), order, 1);
        }
        stems
    }

    /// What a last word adds whose ending is one of these settings'.
    pub fn find(&self, settings: Settings, word: &str) -> Option<Stem> {
        let [gender, number, case, ..] = settings;
        let endings = &self.endings[&[gender, number, case]];
        endings
            .iter()
            .find_map(|ending| self.stems.get(word.strip_suffix(ending.as_str())?).copied())
    }

    /// Of order 0 the last word has but the units, the tens or the hundreds.
    fn learn(&mut self, text: &str, order: usize, group: u32) {
        let said = said([0; PORTED], text);
        let word = said.rsplit(' ').next().unwrap_or("");
        let [hard, soft] = &self.endings[&[0; PORTED]];
        let ending = if order == 0 && group % 10 == 3 && group % 100 != 13 { soft } else { hard };
        let stem = word.strip_suffix(ending.as_str()).expect("the last word has the ending");
        let group = match group {
            _ if order > 0 || group % 100 == 0 => group,
            _ if group % 10 == 0 || group / 10 % 10 == 1 => group % 100,
            _ => group % 10,
        };
        let known = self.stems.insert(stem.to_string(), Stem { order, group });
        assert!(known.is_none_or(|k| k == Stem { order, group }), "{stem} is two numbers");
    }
}

fn said([gender, number, case]: [u32; PORTED], text: &str) -> String {
    let manner = Manner::new(Kind::UkOrdinal, [gender, number, case, 0, 0], "").in_school();
    expect::phrase(&manner, text.as_bytes())
}

/// What 1st and 3rd have behind their stems.
fn endings() -> HashMap<[u32; PORTED], [String; 2]> {
    let behind = |word: &str, stem: &str| -> String {
        word.strip_prefix(stem).expect("the stem is the same in all settings").to_string()
    };
    let each = |settings: Settings| {
        let [gender, number, case, ..] = settings;
        let key = [gender, number, case];
        (key, [behind(&said(key, "1"), "перш"), behind(&said(key, "3"), "трет")])
    };
    Kind::UkOrdinal.ported_settings().into_iter().map(each).collect()
}
