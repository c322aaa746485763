//! The kinds of lines, their fields by name, and the lines of a save or a forcing.

use crate::saves::Edition;

/// A kind of line.
pub(crate) struct Layout {
    pub name: &'static str,
    /// The kind byte.
    pub kind: u8,
    /// The fields by name, with the digits of each.
    fields: &'static [(&'static str, usize)],
}

pub(crate) const HEAD_1: Layout = Layout {
    name: "head 01",
    kind: 0x01,
    fields: &[
        ("kind", 2),
        ("sequence", 4),
        ("N", 4),
        ("E", 4),
        ("step", 8),
        ("Wx", 16),
        ("Wy", 16),
        ("check byte", 2),
    ],
};

pub(crate) const NODE_1: Layout = Layout {
    name: "node 02",
    kind: 0x02,
    fields: &[
        ("kind", 2),
        ("sequence", 4),
        ("earlier z", 16),
        ("z", 16),
        ("U", 16),
        ("V", 16),
        ("check byte", 2),
    ],
};

pub(crate) const END_1: Layout = Layout {
    name: "end 03 of edition 1",
    kind: 0x03,
    fields: &[("kind", 2), ("sequence", 4), ("N", 4), ("check byte", 2)],
};

pub(crate) const HEAD_2: Layout = Layout {
    name: "head 04",
    kind: 0x04,
    fields: &[
        ("kind", 2),
        ("sequence", 4),
        ("N", 4),
        ("E", 4),
        ("step", 8),
        ("check byte", 2),
    ],
};

pub(crate) const SETTING: Layout = Layout {
    name: "line 05",
    kind: 0x05,
    fields: &[
        ("kind", 2),
        ("sequence", 4),
        ("dt", 16),
        ("tau", 16),
        ("K", 16),
        ("f", 16),
        ("sum of D", 16),
        ("check byte", 2),
    ],
};

pub(crate) const NODE_2: Layout = Layout {
    name: "node 06",
    kind: 0x06,
    fields: &[
        ("kind", 2),
        ("sequence", 4),
        ("earlier z", 16),
        ("z", 16),
        ("U", 16),
        ("V", 16),
        ("Wx", 16),
        ("Wy", 16),
        ("check byte", 2),
    ],
};

pub(crate) const END_2: Layout = Layout {
    name: "end 03 of edition 2",
    kind: 0x03,
    fields: &[("kind", 2), ("sequence", 4), ("N", 4), ("check byte", 2)],
};

pub(crate) const KIND_10: Layout = Layout {
    name: "kind 10",
    kind: 0x10,
    fields: &[
        ("kind", 2),
        ("sequence", 4),
        ("elevation", 16),
        ("Wx'", 16),
        ("Wy'", 16),
        ("check byte", 2),
    ],
};

pub(crate) const KIND_14: Layout = Layout {
    name: "kind 14",
    kind: 0x14,
    fields: &[
        ("kind", 2),
        ("sequence", 4),
        ("elevation", 16),
        ("check byte", 2),
    ],
};

pub(crate) const KIND_15: Layout = Layout {
    name: "kind 15",
    kind: 0x15,
    fields: &[
        ("kind", 2),
        ("sequence", 4),
        ("Wx'", 16),
        ("Wy'", 16),
        ("check byte", 2),
    ],
};

impl Layout {
    /// The bytes of a line of this kind, with its line feed.
    pub fn length(&self) -> usize {
        let digits: usize = self.fields.iter().map(|(_, digits)| digits).sum();
        digits + 1
    }

    /// The fields of a line with their names; one that ends too early has fewer
    /// digits in its last.
    pub fn fields<'a>(&self, line: &'a [u8]) -> Vec<(&'static str, &'a [u8])> {
        let mut rest = line;
        let mut fields = Vec::new();
        for &(name, digits) in self.fields {
            let (field, after) = rest.split_at(digits.min(rest.len()));
            fields.push((name, field));
            rest = after;
        }
        fields
    }

    /// The names of the fields.
    pub fn names(&self) -> Vec<&'static str> {
        self.fields.iter().map(|&(name, _)| name).collect()
    }
}

/// A line of a known kind.
pub(crate) type Line<'a> = (&'static Layout, &'a [u8]);

/// The lines of these kinds that stand at the beginning of some bytes, each of the
/// length that is due where there are so many bytes.
fn cut<'a>(bytes: &'a [u8], layouts: Vec<&'static Layout>) -> Vec<Line<'a>> {
    let mut rest = bytes;
    let mut lines = Vec::new();
    for layout in layouts {
        let (line, after) = rest.split_at(layout.length().min(rest.len()));
        lines.push((layout, line));
        rest = after;
    }
    lines
}

/// The lines of a save, by the edition that its beginning says.
pub(crate) fn of_save(text: &[u8], n: usize) -> Vec<Line<'_>> {
    let (mut layouts, node, end): (Vec<&'static Layout>, _, _) = match Edition::of(text) {
        Edition::One => (vec![&HEAD_1], &NODE_1, &END_1),
        Edition::Two => (vec![&HEAD_2, &SETTING], &NODE_2, &END_2),
    };
    layouts.extend(vec![node; n]);
    layouts.push(end);
    cut(text, layouts)
}

/// The lines of a forcing for N nodes, by the kind that its beginning says.
pub(crate) fn of_forcing(text: &[u8], n: usize) -> Vec<Line<'_>> {
    let mut layouts: Vec<&'static Layout> = vec![&KIND_10];
    if !text.starts_with(b"10") {
        layouts = vec![&KIND_15; n + 1];
        layouts[0] = &KIND_14;
    }
    cut(text, layouts)
}
