//! The number texts to be spoken: short ones, boundaries, random ones and malformed ones.

use crate::kinds::Kind;
use crate::random::Random;

/// All texts of the kind up to this number, also with the minus where it is taken.
pub fn short(kind: Kind, up_to: u32) -> impl Iterator<Item = String> {
    let negative = move |n: u32| (kind.takes_sign() && n > 0).then(|| format!("-{n}"));
    (0..=up_to).flat_map(move |n| [Some(n.to_string()), negative(n)]).flatten()
}

/// All money texts with hundredths up to so many of them.
pub fn hundredths(up_to: u32) -> impl Iterator<Item = String> {
    (1..=up_to).filter(|n| n % 100 > 0).map(|n| format!("{}.{:02}", n / 100, n % 100))
}

/// The most digits of the kind's admitted texts.
pub fn most_digits(kind: Kind) -> usize {
    kind.limit().len()
}

/// Boundaries: powers of ten, one less and one more; the limit, one digit short of it, one more
/// and one digit more; groups of every shape at every order. Some are above the limit.
pub fn boundaries(kind: Kind) -> Vec<String> {
    let most = most_digits(kind);
    let mut magnitudes = Vec::new();
    for zeros in 0..=most + 1 {
        magnitudes.push(format!("1{}", "0".repeat(zeros)));
        magnitudes.push("9".repeat(zeros + 1));
        magnitudes.push(one_more(&format!("1{}", "0".repeat(zeros))));
    }
    let limit = kind.limit();
    let above = one_more(&limit);
    magnitudes.push(one_less(&limit));
    magnitudes.push(limit[..most - 1].to_string());
    magnitudes.push(limit[1..].to_string());
    magnitudes.push(format!("{limit}0"));
    magnitudes.push(one_more(&above));
    magnitudes.extend([limit, above]);
    for (order, group) in (0..most.div_ceil(3)).flat_map(|o| GROUPS.map(|g| (o, g))) {
        magnitudes.push(format!("{group}{}", "000".repeat(order)));
        magnitudes.push(format!("{group}{}", "001".repeat(order)));
    }
    magnitudes.into_iter().flat_map(|magnitude| dressed(kind, magnitude)).collect()
}

/// Groups that differ in agreement, teens, joiners or plural.
const GROUPS: [u32; 24] = [
    1, 2, 3, 4, 5, 10, 11, 12, 17, 21, 22, 70, 71, 80, 81, 90, 91, 99, 100, 101, 180, 200, 313, 999,
];

/// A magnitude as it is, and with a minus or hundredths where the kind takes them.
fn dressed(kind: Kind, magnitude: String) -> Vec<String> {
    let negative = (kind.takes_sign() && magnitude != "0").then(|| format!("-{magnitude}"));
    let money = kind == Kind::UkMoney;
    let hundredths = ["01", "02", "05", "11", "21", "99"].map(|h| format!("{magnitude}.{h}"));
    let hundredths = hundredths.into_iter().filter(|_| money);
    std::iter::once(magnitude.clone()).chain(negative).chain(hundredths).collect()
}

fn one_more(digits: &str) -> String {
    let kept = digits.trim_end_matches('9');
    let nines = digits.len() - kept.len();
    let zeros = "0".repeat(nines);
    match kept.as_bytes().split_last() {
        None => format!("1{zeros}"),
        Some((last, front)) => {
            format!("{}{}{zeros}", String::from_utf8_lossy(front), (last + 1) as char)
        }
    }
}

/// One less than digits that do not end in 0.
fn one_less(digits: &str) -> String {
    let (front, last) = digits.split_at(digits.len() - 1);
    format!("{front}{}", last.parse::<u32>().unwrap_or(1) - 1)
}

/// A random text of this many digits in its whole part; it may be above the limit.
pub fn random(kind: Kind, digits: usize, random: &mut Random) -> String {
    let shape = random.below(4);
    let mut text = String::new();
    if kind.takes_sign() && random.below(2) == 0 {
        text.push('-');
    }
    for place in (0..digits).rev() {
        let first = place + 1 == digits;
        let zero_group = shape == 1 && (place / 3) % 2 == random.below(2);
        let digit = match (first, shape) {
            (true, _) => 1 + random.below(9),
            (false, 0) => random.below(10),
            (false, 1) if zero_group => 0,
            (false, 2) => *random.pick(&[0, 0, 0, 1, 2, 7, 8, 9]),
            (false, 3) => *random.pick(&[0, 1]),
            _ => random.below(10),
        };
        text.push((b'0' + digit as u8) as char);
    }
    if kind == Kind::UkMoney && random.below(3) > 0 {
        text.push_str(&format!(".{:02}", 1 + random.below(99)));
    }
    text
}

/// Texts that are malformed, or well formed for one kind alone, or refused by sign or size.
#[rustfmt::skip]
pub const MALFORMED: [&str; 64] = [
    "", "-", "--1", "+1", "+0", "-0", "00", "007", "-007", "01", "-01", "000", " 1", "1 ", "1 000",
    "1,000", "1_000", "0x10", "1e3", "inf", "nan", "один", "١", "²", "1.", "1.0", "1.5", "1.00",
    "1.50", "1.505", "0.00", "-0.00", "0.01", "-0.01", "-0.50", "00.50", "01.50", ".50", "-.50",
    ".", "-.", "1..5", "1.2.3", "1.-5", "1.5-", "1.5 ", "1. 5", "1.0a", "a.10", "-1.50", "-1.00",
    "18446744073709551616.00", "-18446744073709551616", "-18446744073709551616.50", "0.10", "0.1",
    "0.5", "0.", "0.000", "1-", "1-1", "-1", "\n1", "1\n",
];

/// A random edit of a text: a byte changed, inserted, dropped or doubled.
pub fn edited(text: &str, random: &mut Random) -> Vec<u8> {
    let mut bytes = text.as_bytes().to_vec();
    let byte = match random.below(4) {
        0 => random.next() as u8,
        _ => *random.pick(b"0123456789-+.00-. "),
    };
    let at = random.below(bytes.len() + 1);
    match random.below(4) {
        0 => bytes.insert(at, byte),
        1 if at < bytes.len() => bytes[at] = byte,
        2 if at < bytes.len() => drop(bytes.remove(at)),
        _ => bytes.extend_from_within(at..),
    }
    bytes
}
