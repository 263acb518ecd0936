//! The words of the refusals and the version: the archive's calls against the table of docs/CALLS.md and the header.

use crate::archive::{c, lent, one_figure};
use crate::compare::Seen;
use crate::reference::{OUTPUT_SHORT, OUTSIDE};

const CALLS: &str = include_str!("../../docs/CALLS.md");
const HEADER: &str = include_str!("../../include/krakobran.h");

/// The words of a refusal: its row in the table.
pub fn words(refusal: u64) -> Option<&'static str> {
    let start = format!("| {refusal} | ");
    let row = CALLS.lines().find_map(|line| line.strip_prefix(&start))?;
    row.strip_suffix(" |").filter(|_| refusal != 0)
}

/// The version as one number: 1,000,000 for each major version, 1,000 for each minor one, and the patch.
fn version() -> Option<u64> {
    let text = HEADER.lines().find_map(|line| line.strip_prefix("#define KRAKOBRAN_VERSION \""))?;
    let parts = text.trim_end_matches('"').split('.').map(|part| part.parse::<u64>().ok());
    parts.collect::<Option<Vec<u64>>>().map(|parts| parts.iter().fold(0, |number, part| 1000 * number + part))
}

/// Every refusal and some numbers that are none, with each room up to more than enough.
pub fn compare(seen: &mut Seen) -> Result<(), String> {
    let found = unsafe { c::krakobran_version() };
    if Some(found) != version() {
        return Err(format!("version {found}, header {:?}\n", version()));
    }
    for refusal in (0..=32).chain([1 << 32, (1 << 32) + 1, u64::MAX]) {
        for room in 0..=130 {
            let mut left = vec![0xA7; room];
            let mut right = left.clone();
            let (o, places) = lent(&mut left);
            let a = one_figure(|w| unsafe { c::krakobran_refusal_words(refusal, o, places, w) });
            let b = match words(refusal) {
                None => (OUTSIDE, 0),
                Some(words) if words.len() > room => (OUTPUT_SHORT, 0),
                Some(words) => {
                    right[..words.len()].copy_from_slice(words.as_bytes());
                    (0, words.len() as u32)
                }
            };
            seen.call("refusal words", a.0);
            if (a, &left) != (b, &right) {
                let [left, right] = [left, right].map(|octets| String::from_utf8_lossy(&octets).into_owned());
                return Err(format!("words of refusal {refusal}\n left {a:?} {left}\nright {b:?} {right}\n"));
            }
        }
    }
    Ok(())
}
