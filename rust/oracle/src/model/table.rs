//! Spec bytes: the four sections, and the rules of the rows.

/// A row as it stands in the table, its kind and mode already known to be good.
#[derive(Clone, Copy)]
pub struct Row {
    pub kind: u8,
    pub mode: u8,
    pub count: u64,
    pub extra: u64,
    pub minima: u64,
}

pub const PANE: u8 = 0;
pub const TABS: u8 = 1;
pub const SPLIT: u8 = 2;

pub struct Table {
    pub rows: Vec<Row>,
    pub panes: Vec<u64>,
    pub shares: Vec<f64>,
    pub minima: Vec<f64>,
}

/// The lent bytes and the place reached in them.
struct Reader<'a> {
    bytes: &'a [u8],
    place: usize,
}

impl Reader<'_> {
    fn take<const N: usize>(&mut self) -> Option<[u8; N]> {
        let end = self.place.checked_add(N)?;
        let taken = self.bytes.get(self.place..end)?.try_into().ok()?;
        self.place = end;
        Some(taken)
    }

    fn count(&mut self) -> Option<u32> {
        self.take().map(u32::from_le_bytes)
    }

    /// A section: its count, then that many entries of eight bytes.
    fn section<T>(&mut self, entry: impl Fn([u8; 8]) -> Option<T>) -> Option<Vec<T>> {
        let count = self.count()?;
        let mut entries = Vec::new();
        for _ in 0..count {
            entries.push(entry(self.take()?)?);
        }
        Some(entries)
    }
}

/// The table, or nothing where the bytes break any rule of it (refusal 1).
pub fn read(bytes: &[u8]) -> Option<Table> {
    let mut reader = Reader { bytes, place: 0 };
    let table = Table {
        rows: reader.section(row)?,
        panes: reader.section(|bytes| Some(u64::from_le_bytes(bytes)))?,
        shares: reader.section(|bytes| Some(f64::from_le_bytes(bytes)))?,
        minima: reader.section(|bytes| Some(f64::from_le_bytes(bytes)))?,
    };
    let at_end = reader.place == bytes.len();
    (at_end && one_root_in_preorder(&table.rows) && sections_used_up(&table)).then_some(table)
}

fn row(bytes: [u8; 8]) -> Option<Row> {
    let wide = |at: usize| u64::from(u16::from_le_bytes([bytes[at], bytes[at + 1]]));
    let row =
        Row { kind: bytes[0], mode: bytes[1], count: wide(2), extra: wide(4), minima: wide(6) };
    let good = match row.kind {
        PANE => row.mode == 0 && row.count == 1 && row.extra == 0 && row.minima == 0,
        TABS => row.mode <= 4 && row.minima == 0,
        SPLIT => row.mode <= 1,
        _ => false,
    };
    good.then_some(row)
}

/// Before each row some tile is still owed, and after the last none is.
fn one_root_in_preorder(rows: &[Row]) -> bool {
    let mut owed = 1_u64;
    for row in rows {
        if owed == 0 {
            return false;
        }
        owed -= 1;
        if row.kind == SPLIT {
            owed += row.count;
        }
    }
    owed == 0
}

fn sections_used_up(table: &Table) -> bool {
    let sum = |part: fn(&Row) -> u64| table.rows.iter().map(part).sum::<u64>();
    sum(panes_of) == table.panes.len() as u64
        && sum(shares_of) == table.shares.len() as u64
        && sum(|row| row.minima) == table.minima.len() as u64
}

pub fn panes_of(row: &Row) -> u64 {
    if row.kind == SPLIT { 0 } else { row.count }
}

pub fn shares_of(row: &Row) -> u64 {
    if row.kind == SPLIT { row.extra } else { 0 }
}
