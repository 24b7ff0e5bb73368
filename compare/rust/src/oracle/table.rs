//! A schema table of document 01, cut up by type. Only well-formed tables come here; the asserts catch the rest.
use std::collections::HashMap;
use std::io::Read;

pub const NONE: u32 = u32::MAX;

pub struct Table {
    pub names: Vec<String>,
    pub types: Vec<Ty>,
    pub roots: [Option<usize>; 3],
    /// The number of each name.
    pub numbers: HashMap<String, usize>,
    // The type row that each section row belongs to.
    pub edge_ty: Vec<usize>,
    pub field_ty: Vec<usize>,
    pub arg_ty: Vec<usize>,
    pub member_ty: Vec<usize>,
    pub value_ty: Vec<usize>,
}
pub struct Ty {
    pub name: usize,
    pub kind: u32,
    pub built_in: bool,
    pub edges: Vec<usize>,
    pub fields: Vec<Fd>,
    pub members: Vec<usize>,
    pub values: Vec<usize>,
}
pub struct Fd {
    pub name: usize,
    pub ty: usize,
    pub wrap: u32,
    pub default: bool,
    pub args: Vec<Arg>,
}
#[derive(Clone, Copy)]
pub struct Arg {
    pub name: usize,
    pub ty: usize,
    pub wrap: u32,
    pub default: bool,
}

/// One word, or nothing at the end of the file.
fn word(input: &mut impl Read) -> Option<u32> {
    let mut b = [0; 4];
    let mut have = 0;
    while have < 4 {
        match input.read(&mut b[have..]).unwrap() {
            0 if have == 0 => return None,
            0 => panic!("the file ends within a word"),
            n => have += n,
        }
    }
    Some(u32::from_le_bytes(b))
}

/// The next table: the text's length in bytes, the number of words, the text padded to whole words, the words.
pub fn read(input: &mut impl Read) -> Option<Table> {
    let text_len = word(input)? as usize;
    let words_len = word(input)? as usize;
    let mut text = vec![0; (text_len + 3) / 4 * 4];
    input.read_exact(&mut text).unwrap();
    text.truncate(text_len);
    let mut bytes = vec![0; 4 * words_len];
    input.read_exact(&mut bytes).unwrap();
    let words: Vec<u32> = bytes.chunks_exact(4).map(|b| u32::from_le_bytes(b.try_into().unwrap())).collect();
    Some(cut(&text, &words))
}

/// Takes `rows` rows of `width` words from the front of what is left.
fn section<'a>(rest: &mut &'a [u32], rows: u32, width: usize) -> Vec<&'a [u32]> {
    let (front, back) = rest.split_at(rows as usize * width);
    *rest = back;
    front.chunks_exact(width).collect()
}

fn cut(text: &[u8], words: &[u32]) -> Table {
    let (head, mut rest) = words.split_at(7);
    let names = section(&mut rest, head[0], 2);
    let types = section(&mut rest, head[1], 7);
    let edges = section(&mut rest, head[2], 1);
    let fields = section(&mut rest, head[3], 5);
    let args = section(&mut rest, head[4], 4);
    let members = section(&mut rest, head[5], 1);
    let values = section(&mut rest, head[6], 1);
    assert_eq!(rest.len(), 3, "length of the table");

    let mut t = Table {
        names: names.iter().map(|n| name(text, n[0] as usize, n[1] as usize)).collect(),
        types: Vec::new(),
        roots: [0, 1, 2].map(|i| (rest[i] != NONE).then_some(rest[i] as usize)),
        numbers: HashMap::new(),
        edge_ty: Vec::new(),
        field_ty: Vec::new(),
        arg_ty: Vec::new(),
        member_ty: Vec::new(),
        value_ty: Vec::new(),
    };
    t.numbers = t.names.iter().cloned().zip(0..).collect();
    // A row's own rows start where those of the row before it end.
    let (mut e, mut f, mut a, mut m, mut v) = (0, 0, 0, 0, 0);
    for (row, w) in types.iter().enumerate() {
        let mut ty = Ty {
            name: w[0] as usize,
            kind: w[1],
            built_in: w[2] == 1,
            edges: single(&edges, &mut e, w[3]),
            fields: Vec::new(),
            members: single(&members, &mut m, w[5]),
            values: single(&values, &mut v, w[6]),
        };
        for x in &fields[f..w[4] as usize] {
            let own = args[a..x[3] as usize].iter().map(|y| Arg {
                name: y[0] as usize,
                ty: y[1] as usize,
                wrap: y[2],
                default: y[3] == 1,
            });
            ty.fields.push(Fd {
                name: x[0] as usize,
                ty: x[1] as usize,
                wrap: x[2],
                default: x[4] == 1,
                args: own.collect(),
            });
            a = x[3] as usize;
            t.arg_ty.resize(a, row);
        }
        f = w[4] as usize;
        t.edge_ty.resize(e, row);
        t.field_ty.resize(f, row);
        t.member_ty.resize(m, row);
        t.value_ty.resize(v, row);
        t.types.push(ty);
    }
    t
}

fn name(text: &[u8], start: usize, length: usize) -> String {
    String::from_utf8(text[start..start + length].to_vec()).unwrap()
}

/// The one-word rows from `at` to `end`, and `at` moved on.
fn single(rows: &[&[u32]], at: &mut usize, end: u32) -> Vec<usize> {
    let own = rows[*at..end as usize].iter().map(|r| r[0] as usize).collect();
    *at = end as usize;
    own
}
