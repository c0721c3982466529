//! Makes a failing document small: drops pieces and plainer bytes as long as it still fails.

/// So many smaller documents are tried: a large one need not become the smallest.
const TRIES: usize = 2_000;

pub fn shrink(doc: &[u8], mut fails: impl FnMut(&[u8]) -> bool) -> Vec<u8> {
    let mut doc = doc.to_vec();
    let mut left = TRIES;
    let mut fails = move |doc: &[u8]| {
        left = left.saturating_sub(1);
        left > 0 && fails(doc)
    };
    loop {
        let before = doc.clone();
        drop_pieces(&mut doc, &mut fails);
        plainer_bytes(&mut doc, &mut fails);
        if doc == before {
            return doc;
        }
    }
}

fn drop_pieces(doc: &mut Vec<u8>, fails: &mut impl FnMut(&[u8]) -> bool) {
    let mut size = doc.len().max(1);
    while size > 0 {
        let mut at = 0;
        while at < doc.len() {
            let mut less = doc.clone();
            less.drain(at..doc.len().min(at + size));
            if fails(&less) {
                *doc = less;
            } else {
                at += size;
            }
        }
        size /= 2;
    }
}

fn plainer_bytes(doc: &mut [u8], fails: &mut impl FnMut(&[u8]) -> bool) {
    for i in 0..doc.len() {
        for plain in [b'1', b'a'] {
            let kept = doc[i];
            if kept == b'1' || kept == plain || kept == b'\n' {
                continue;
            }
            doc[i] = plain;
            if !fails(doc) {
                doc[i] = kept;
            }
        }
    }
}
