//! Makes a finding's text smaller: lines go, then bytes, as long as the finding
//! stays.

/// The smallest text that deletion comes to.
pub fn minimize(text: &[u8], mut stays: impl FnMut(&[u8]) -> bool) -> Vec<u8> {
    let mut text = text.to_vec();
    loop {
        let before = text.len();
        let lines: Vec<Vec<u8>> = text
            .split_inclusive(|b| *b == b'\n')
            .map(<[u8]>::to_vec)
            .collect();
        text = without(lines, &mut stays).concat();
        // A long text is not taken apart byte by byte.
        if text.len() <= 4_096 {
            let bytes: Vec<Vec<u8>> = text.iter().map(|b| vec![*b]).collect();
            text = without(bytes, &mut stays).concat();
        }
        if text.len() == before {
            return text;
        }
    }
}

/// Pieces are left out, many at a time and then fewer.
fn without(mut pieces: Vec<Vec<u8>>, stays: &mut impl FnMut(&[u8]) -> bool) -> Vec<Vec<u8>> {
    let mut width = pieces.len().next_power_of_two();
    while width > 0 {
        let mut at = 0;
        while at < pieces.len() {
            let end = (at + width).min(pieces.len());
            let fewer = [&pieces[..at], &pieces[end..]].concat();
            if stays(&fewer.concat()) {
                pieces = fewer;
            } else {
                at += width;
            }
        }
        width /= 2;
    }
    pieces
}
