//! A recording cut at every byte.

use crate::listing;

/// `cut N` and the listing of the first N bytes, for every N from 0 to all of them.
pub fn list(recording: &[u8]) -> Vec<u8> {
    let mut out = Vec::new();
    for end in 0..=recording.len() {
        out.extend_from_slice(format!("cut {end}\n").as_bytes());
        out.extend(listing::list(&recording[..end]));
    }
    out
}

#[cfg(test)]
mod tests {
    use super::*;
    use crate::recording_maker;

    #[test]
    fn every_prefix_has_its_listing() {
        let listed = String::from_utf8(list(&[2, 0, 1, b'x', 9])).unwrap();
        let expected = "cut 0\nend 0 0\n\
             cut 1\nend 40 0\n\
             cut 2\nend 40 0\n\
             cut 3\nend 40 0\n\
             cut 4\nnote x\nend 0 0\n\
             cut 5\nnote x\nend 40 0\n";
        assert_eq!(listed, expected);
    }

    /// The fields that are complete before a byte are listed whatever stands behind it.
    #[test]
    fn a_cut_takes_whole_fields_off_the_end() {
        let recording = recording_maker::make_small(4, 14);
        let whole = listing::list(&recording);
        let whole = String::from_utf8(whole).unwrap();
        for end in 0..recording.len() {
            let listed = String::from_utf8(listing::list(&recording[..end])).unwrap();
            let (fields, last) = listed.trim_end().rsplit_once('\n').unwrap_or(("", &listed));
            assert!(whole.starts_with(fields), "{end}");
            let skipped = fields.lines().filter(|l| l.starts_with("skipped "));
            let at_boundary = crate::recording::fields(&recording[..end]).1.is_empty();
            let answer = if at_boundary { 0 } else { 40 };
            let expected = format!("end {answer} {}", skipped.count());
            assert_eq!(last.trim_end(), expected, "{end}");
        }
    }
}
