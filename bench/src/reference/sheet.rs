//! A sheet as words, with the places where its sections end.

pub struct Sheet {
    words: Vec<u32>,
    holds_at: usize,
    arcs_at: usize,
    regions_at: usize,
}

pub fn kind(word: u32) -> u32 {
    word >> 28
}

pub fn payload(word: u32) -> u32 {
    word & 0x0fff_ffff
}

/// The words of bytes whose number is a multiple of 4.
pub fn words(bytes: &[u8]) -> Vec<u32> {
    bytes.chunks_exact(4).map(|word| u32::from_be_bytes([word[0], word[1], word[2], word[3]])).collect()
}

/// The place after the words of a kind that stand together from a place on.
fn past(words: &[u32], from: usize, wanted: u32) -> usize {
    from + words[from..].iter().take_while(|word| kind(**word) == wanted).count()
}

impl Sheet {
    /// The sections of a sheet whose kinds are in order, otherwise nothing. How many holds there are is not looked at.
    pub fn in_order(words: Vec<u32>) -> Option<Sheet> {
        if words.len() < 2 || kind(words[0]) != 1 || kind(words[1]) != 2 {
            return None;
        }
        let holds_at = past(&words, 2, 3);
        let arcs_at = past(&words, holds_at, 13);
        let pairs = words[arcs_at..].chunks_exact(2).take_while(|pair| kind(pair[0]) == 4 && kind(pair[1]) == 5).count();
        let regions_at = arcs_at + 2 * pairs;
        let rest_fits = words[regions_at..].iter().all(|word| matches!(kind(*word), 6 | 7));
        rest_fits.then_some(Sheet { words, holds_at, arcs_at, regions_at })
    }

    pub fn nodes(&self) -> usize {
        payload(self.words[0]) as usize
    }

    pub fn source(&self) -> usize {
        payload(self.words[1]) as usize
    }

    pub fn spans(&self) -> &[u32] {
        &self.words[2..self.holds_at]
    }

    /// The words of the holds, one for each node, or none.
    pub fn holds(&self) -> &[u32] {
        &self.words[self.holds_at..self.arcs_at]
    }

    /// "the hold in hundredths at nodes 0, 1, 2 and so on", 0 in a sheet without holds.
    pub fn hold(&self, node: usize) -> u32 {
        self.holds().get(node).map_or(0, |word| payload(*word))
    }

    /// The words of the arcs, two for each.
    pub fn arc_words(&self) -> &[u32] {
        &self.words[self.arcs_at..self.regions_at]
    }

    pub fn arc_count(&self) -> usize {
        self.arc_words().len() / 2
    }

    /// The arcs with their lengths as written.
    pub fn arcs(&self) -> impl Iterator<Item = Arc> + '_ {
        self.arc_words().chunks_exact(2).map(|pair| Arc::of(pair[0], pair[1]))
    }

    /// The arcs as the procedure takes them: "an arc's length with its tail's hold added (0 for the source)".
    pub fn taken_arcs(&self) -> impl Iterator<Item = Arc> + '_ {
        let added = |tail| if tail == self.source() { 0 } else { self.hold(tail) };
        self.arcs().map(move |arc| Arc { length: added(arc.tail) + arc.length, ..arc })
    }

    /// The most arcs out of a node or into one.
    pub fn most_one_way(&self) -> usize {
        let mut counts = [[0; 1024]; 2];
        for arc in self.arcs() {
            counts[0][arc.tail] += 1;
            counts[1][arc.head] += 1;
        }
        counts.iter().flatten().copied().max().unwrap_or(0)
    }

    /// The words of kinds 1 to 5 and 13.
    pub fn before_regions(&self) -> &[u32] {
        &self.words[..self.regions_at]
    }

    /// The words of regions 1, 2, 3 and so on.
    pub fn regions(&self) -> &[u32] {
        &self.words[self.regions_at..]
    }
}

#[derive(Clone, Copy)]
pub struct Arc {
    pub tail: usize,
    pub head: usize,
    pub length: u32,
}

impl Arc {
    fn of(ends: u32, length: u32) -> Arc {
        Arc { tail: (ends >> 10 & 1023) as usize, head: (ends & 1023) as usize, length: payload(length) }
    }

    /// "an arc from a node to itself"
    pub fn is_self_arc(self) -> bool {
        self.tail == self.head
    }
}

pub fn is_leaf(region: u32) -> bool {
    kind(region) == 7
}

pub fn parent(region: u32) -> usize {
    if is_leaf(region) {
        (region >> 11 & 4095) as usize
    } else {
        payload(region) as usize
    }
}

pub fn leaf_arc(region: u32) -> usize {
    (region & 2047) as usize
}
