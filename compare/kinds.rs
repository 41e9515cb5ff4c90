//! The kinds of phrase, their settings and limits, and a figure to be spoken.

/// What is spoken. Each kind has a spelling and a measuring call; all but one have a reading call.
#[derive(Clone, Copy, PartialEq, Eq, Hash, Debug)]
pub enum Kind {
    UkCardinal,
    UkMoney,
    UkOrdinal,
    UkDigitOrdinal,
    UkYear,
    FrCardinal,
    FrOrdinal,
}

pub const KINDS: [Kind; 7] = [
    Kind::UkCardinal,
    Kind::UkMoney,
    Kind::UkOrdinal,
    Kind::UkDigitOrdinal,
    Kind::UkYear,
    Kind::FrCardinal,
    Kind::FrOrdinal,
];

/// What a call does with a figure.
#[derive(Clone, Copy, PartialEq, Eq, Debug)]
pub enum Task {
    Spelling,
    Measuring,
    Reading,
}

/// Ukrainian: gender, number, case, apostrophe, ordinal style. French: feminine, reformed, region,
/// and zeros.
pub type Settings = [u32; 5];

/// Where the settings that the Rust does not have stand among the Ukrainian ones.
const APOSTROPHE: usize = 3;
const STYLE: usize = 4;

/// The style of ordinals as taught in school. The Rust's is 0.
const SCHOOL: u32 = 1;

/// The apostrophes by their numbers. The first is the Rust's.
pub const SIGNS: [&str; 3] = ["\u{2bc}", "\u{2019}", "'"];

impl Kind {
    pub fn name(self) -> &'static str {
        match self {
            Kind::UkCardinal => "Ukrainian cardinal",
            Kind::UkMoney => "Ukrainian money",
            Kind::UkOrdinal => "Ukrainian ordinal",
            Kind::UkDigitOrdinal => "Ukrainian digit ordinal",
            Kind::UkYear => "Ukrainian year",
            Kind::FrCardinal => "French cardinal",
            Kind::FrOrdinal => "French ordinal",
        }
    }

    /// The spelling call without its prefix.
    pub fn spelling_call(self) -> &'static str {
        match self {
            Kind::UkCardinal => "uk_to_cardinal",
            Kind::UkMoney => "uk_to_currency",
            Kind::UkOrdinal => "uk_to_ordinal",
            Kind::UkDigitOrdinal => "uk_to_ordinal_num",
            Kind::UkYear => "uk_to_year",
            Kind::FrCardinal => "fr_to_cardinal",
            Kind::FrOrdinal => "fr_to_ordinal",
        }
    }

    /// The measuring call without its prefix.
    pub fn measuring_call(self) -> &'static str {
        match self {
            Kind::UkCardinal => "uk_measure_cardinal",
            Kind::UkMoney => "uk_measure_currency",
            Kind::UkOrdinal => "uk_measure_ordinal",
            Kind::UkDigitOrdinal => "uk_measure_ordinal_num",
            Kind::UkYear => "uk_measure_year",
            Kind::FrCardinal => "fr_measure_cardinal",
            Kind::FrOrdinal => "fr_measure_ordinal",
        }
    }

    /// The reading call without its prefix, for the kinds that have one.
    pub fn reading_call(self) -> Option<&'static str> {
        match self {
            Kind::UkCardinal => Some("uk_from_cardinal"),
            Kind::UkMoney => Some("uk_from_currency"),
            Kind::UkOrdinal => Some("uk_from_ordinal"),
            Kind::UkYear => Some("uk_from_year"),
            Kind::FrCardinal => Some("fr_from_cardinal"),
            Kind::FrOrdinal => Some("fr_from_ordinal"),
            Kind::UkDigitOrdinal => None,
        }
    }

    /// The call for a task without its prefix, if the kind has one.
    pub fn call(self, task: Task) -> Option<&'static str> {
        match task {
            Task::Spelling => Some(self.spelling_call()),
            Task::Measuring => Some(self.measuring_call()),
            Task::Reading => self.reading_call(),
        }
    }

    pub fn is_read(self) -> bool {
        self.reading_call().is_some()
    }

    /// Whether the ordinal style has an effect; such a kind is read in school's style alone.
    pub fn has_styles(self) -> bool {
        matches!(self, Kind::UkOrdinal | Kind::UkYear)
    }

    pub fn is_french(self) -> bool {
        matches!(self, Kind::FrCardinal | Kind::FrOrdinal)
    }

    /// How many numbers each setting has: 0 up to one less.
    pub fn setting_sizes(self) -> &'static [u32] {
        if self.is_french() {
            &[2, 2, 3]
        } else {
            &[3, 2, 6, 3, 2]
        }
    }

    pub fn all_settings(self) -> Vec<Settings> {
        let mut all = vec![Settings::default()];
        for (at, size) in self.setting_sizes().iter().enumerate() {
            let each = |settings| (0..*size).map(move |number| set(settings, at, number));
            all = all.into_iter().flat_map(each).collect();
        }
        all
    }

    /// The settings that the Rust has, in the same order; those that came later are 0.
    pub fn ported_settings(self) -> Vec<Settings> {
        let all = self.all_settings().into_iter();
        all.filter(|settings| settings[PORTED..].iter().all(|number| *number == 0)).collect()
    }

    pub fn takes_sign(self) -> bool {
        matches!(self, Kind::UkCardinal | Kind::FrCardinal | Kind::UkYear)
    }

    /// The largest whole part that is admitted, by magnitude.
    pub fn limit(self) -> String {
        match self {
            Kind::UkCardinal | Kind::UkOrdinal => "9".repeat(66),
            Kind::FrCardinal | Kind::FrOrdinal => "9".repeat(102),
            Kind::UkMoney => u64::MAX.to_string(),
            Kind::UkDigitOrdinal => u128::MAX.to_string(),
            Kind::UkYear => i64::MAX.to_string(),
        }
    }
}

/// How many settings the Rust has, in either language.
pub const PORTED: usize = 3;

/// The settings with another number at a place.
pub fn set(mut settings: Settings, at: usize, number: u32) -> Settings {
    settings[at] = number;
    settings
}

/// The 44 currency codes, in the order of the published enum.
pub const CODES: [&str; 44] = [
    "AED", "ARS", "AUD", "BRL", "CAD", "CHF", "CLP", "CNY", "COP", "CRC", "DINAR", "DOLLAR", "DZD",
    "EUR", "GBP", "HKD", "IDR", "ILS", "INR", "JPY", "KRW", "KWD", "KZT", "MXN", "MYR", "NOK",
    "NZD", "PEN", "PESO", "PHP", "PLN", "QAR", "RIYAL", "RUB", "SAR", "SGD", "THB", "TRY", "TWD",
    "UAH", "USD", "UYU", "VND", "ZAR",
];

/// How a figure is to be spoken: the kind, its settings and, for money, the currency code.
#[derive(Clone, Copy, Debug)]
pub struct Manner<'a> {
    pub kind: Kind,
    pub settings: Settings,
    pub code: &'a [u8],
}

impl<'a> Manner<'a> {
    pub fn new(kind: Kind, settings: Settings, code: &'a str) -> Self {
        Manner { kind, settings, code: code.as_bytes() }
    }

    /// The sign that stands for the Rust's; French has none.
    pub fn sign(&self) -> Option<&'static str> {
        (!self.kind.is_french()).then(|| SIGNS[self.settings[APOSTROPHE] as usize])
    }

    /// The manner in school's style, where a style has an effect.
    pub fn in_school(self) -> Self {
        let style = if self.kind.has_styles() { SCHOOL } else { self.settings[STYLE] };
        Manner { settings: set(self.settings, STYLE, style), ..self }
    }

    /// Whether the style is that of school, and has an effect.
    pub fn is_school(&self) -> bool {
        self.kind.has_styles() && self.settings[STYLE] == SCHOOL
    }

    /// Whether there is a call that reads such phrases.
    pub fn is_read(&self) -> bool {
        self.kind.is_read() && (self.is_school() || !self.kind.has_styles())
    }

    /// The manner with each sign and, where it has an effect, each style; in French it alone.
    pub fn with_later_settings(self) -> impl Iterator<Item = Manner<'a>> {
        let signs = if self.kind.is_french() { 1 } else { SIGNS.len() as u32 };
        let styles = if self.kind.has_styles() { SCHOOL } else { 0 };
        let all = (0..=styles).flat_map(move |style| (0..signs).map(move |sign| (sign, style)));
        all.map(move |(sign, style)| Manner {
            settings: set(set(self.settings, APOSTROPHE, sign), STYLE, style),
            ..self
        })
    }

    pub fn show(&self) -> String {
        let settings = &self.settings[..self.kind.setting_sizes().len()];
        let settings: String = settings.iter().map(|number| format!(" {number}")).collect();
        let code = String::from_utf8_lossy(self.code);
        let code = if self.kind == Kind::UkMoney { format!(" {code}") } else { String::new() };
        format!("{}{settings}{code}", self.kind.name())
    }
}

/// Every manner of a kind: all settings and, for money, all codes.
pub fn all_manners(kind: Kind) -> Vec<Manner<'static>> {
    manners(kind, kind.all_settings())
}

/// Every manner of a kind in which it is read.
pub fn read_manners(kind: Kind) -> Vec<Manner<'static>> {
    all_manners(kind).into_iter().filter(Manner::is_read).collect()
}

/// Every manner in the settings that the Rust has.
pub fn ported_manners(kind: Kind) -> Vec<Manner<'static>> {
    manners(kind, kind.ported_settings())
}

fn manners(kind: Kind, settings: Vec<Settings>) -> Vec<Manner<'static>> {
    let codes: &[&str] = if kind == Kind::UkMoney { &CODES } else { &[""] };
    let each = |settings| codes.iter().map(move |code| Manner::new(kind, settings, code));
    settings.into_iter().flat_map(each).collect()
}
