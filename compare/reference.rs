//! The published Rust, built unchanged from the folder named by YOKEPEAR_SOURCES.
//!
//! The files are taken in by path; here stand only the parts of their crate that are not among
//! them: the trait, the two enums that the builder names, and the way from a name to a language.

pub mod currency {
    include!(concat!(env!("YOKEPEAR_SOURCES"), "/", "src/currency.rs"));
}

pub mod num2words {
    include!(concat!(env!("YOKEPEAR_SOURCES"), "/", "src/num2words.rs"));
}

pub mod lang {
    use crate::{Lang, Language};

    pub mod uk {
        include!(concat!(env!("YOKEPEAR_SOURCES"), "/", "src/lang/uk.rs"));
    }

    pub mod fr {
        include!(concat!(env!("YOKEPEAR_SOURCES"), "/", "src/lang/fr.rs"));
    }

    /// The builder stands above what is compared, so its preferences are not followed.
    pub fn to_language(lang: Lang, _preferences: Vec<String>) -> Box<dyn Language> {
        match lang {
            Lang::French => Box::new(fr::French::new(false, false, fr::RegionFrench::FR)),
            Lang::Ukrainian => Box::new(uk::Ukrainian::default()),
            Lang::English => unreachable!("the English file is not among the published ones"),
        }
    }
}

pub use currency::Currency;
pub use num2words::Num2Err;
pub use num_bigfloat::BigFloat;

pub trait Language {
    fn to_cardinal(&self, num: BigFloat) -> Result<String, Num2Err>;
    fn to_ordinal(&self, num: BigFloat) -> Result<String, Num2Err>;
    fn to_ordinal_num(&self, num: BigFloat) -> Result<String, Num2Err>;
    fn to_year(&self, num: BigFloat) -> Result<String, Num2Err>;
    fn to_currency(&self, num: BigFloat, currency: Currency) -> Result<String, Num2Err>;
}

#[derive(Clone, Copy)]
pub enum Lang {
    English,
    French,
    Ukrainian,
}

pub enum Output {
    Cardinal,
    Ordinal,
    OrdinalNum,
    Year,
    Currency,
}
