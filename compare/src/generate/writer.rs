//! Writes fields one after another and keeps a mark of each: where it lies, what holds it, and how a fault tells of it.
//! The marks are what damage is aimed by.

/// What an address is to name.
#[derive(Clone, Copy, Debug, PartialEq, Eq)]
pub enum Target {
    Parent,
    Geometry,
    Material,
    Light,
}

impl Target {
    pub fn kinds(self) -> &'static [u8] {
        match self {
            Self::Parent => &[22, 23, 41],
            Self::Geometry => &[1, 11],
            Self::Material => &[81],
            Self::Light => &[41],
        }
    }

    pub fn may_be_none(self) -> bool {
        matches!(self, Self::Parent | Self::Material)
    }
}

/// What a field is, and so in which ways it can be wrong.
#[derive(Clone, Copy, Debug, PartialEq, Eq)]
pub enum Role {
    /// Any value will do.
    Plain,
    /// The ID of a block that may be 0 or this number.
    BlockId(u32),
    BlockFlags,
    /// The number of bytes that follow at once, a multiple of an item's size.
    Length(u32),
    /// The size of an attribute's value whose type allows one size only.
    FixedLength,
    /// The total of a run that comes later: the holder with this number.
    Total(usize),
    AttributeType,
    LightType,
    JointId,
    /// The parent of the joint with this ID.
    JointParent(u16),
    StreamType,
    Address(Target),
    /// An index of a face, of so many vertices. It is no field of its own: its stream's bytes are.
    Index(u64),
}

/// What a field must fit: the document, a body or a measured run.
#[derive(Clone, Copy, Debug)]
pub struct Holder {
    /// Where the four bytes stand that count it; none for the document.
    pub total: Option<usize>,
    pub from: usize,
    pub end: usize,
    /// It may end before any of its entries, as a body may not.
    divisible: bool,
    /// The mark of the holder as a whole.
    whole: Option<usize>,
}

#[derive(Clone, Copy, Debug)]
pub struct Mark {
    pub place: usize,
    pub size: usize,
    pub role: Role,
    pub holder: usize,
    /// It is the first of something that may lawfully be missing: of a block, or of an entry of a measured run.
    pub opens: bool,
    pub layer: u8,
    pub block: u64,
    pub index: Option<u64>,
}

/// The header of a block that is to be written; the size comes with the body.
#[derive(Clone, Copy, Debug)]
pub struct BlockHeader {
    pub id: u32,
    /// The ID that it could have had instead of 0.
    pub next: u32,
    pub namespace: u8,
    pub kind: u8,
    pub flags: u8,
}

/// Where an entry stood when it began, to go back to when it ends.
#[derive(Clone, Copy)]
pub struct Outside {
    layer: u8,
    index: Option<u64>,
}

#[derive(Clone, Debug)]
pub struct Writer {
    pub bytes: Vec<u8>,
    pub marks: Vec<Mark>,
    pub holders: Vec<Holder>,
    inside: Vec<usize>,
    opens: bool,
    layer: u8,
    block: u64,
    index: Option<u64>,
}

/// A writer whose fields have layer 2 until they are in an entry.
impl Default for Writer {
    fn default() -> Self {
        let everything = Holder {
            total: None,
            from: 0,
            end: 0,
            divisible: true,
            whole: None,
        };
        Self {
            bytes: Vec::new(),
            marks: Vec::new(),
            holders: vec![everything],
            inside: vec![0],
            opens: false,
            layer: 2,
            block: 0,
            index: None,
        }
    }
}

impl Writer {
    pub fn place(&self) -> usize {
        self.bytes.len()
    }

    fn holder(&self) -> usize {
        self.inside[self.inside.len() - 1]
    }

    fn mark(&mut self, size: usize, role: Role) {
        self.marks.push(Mark {
            place: self.place(),
            size,
            role,
            holder: self.holder(),
            opens: self.opens,
            layer: self.layer,
            block: self.block,
            index: self.index,
        });
        self.opens = false;
    }

    /// A number of so many bytes.
    pub fn number(&mut self, value: u64, size: usize, role: Role) {
        self.mark(size, role);
        self.bytes.extend(&value.to_le_bytes()[..size]);
    }

    pub fn raw(&mut self, bytes: &[u8]) {
        self.mark(bytes.len(), Role::Plain);
        self.bytes.extend(bytes);
    }

    /// Bytes that are no field: those of a carried block's body.
    pub fn unread(&mut self, bytes: &[u8]) {
        self.bytes.extend(bytes);
    }

    /// Bytes that are indices of faces: one field, and a mark for each index.
    pub fn indices(&mut self, indices: &[u16], vertices: u64) {
        self.mark(2 * indices.len(), Role::Plain);
        for &index in indices {
            self.number(u64::from(index), 2, Role::Index(vertices));
        }
    }

    pub fn text(&mut self, text: &[u8]) {
        self.number(text.len() as u64, 2, Role::Length(1));
        self.raw(text);
    }

    fn begin_holder(&mut self, total: usize, divisible: bool) {
        let whole = Some(self.marks.len());
        self.mark(0, Role::Plain);
        self.inside.push(self.holders.len());
        self.holders.push(Holder {
            total: Some(total),
            from: self.place(),
            end: 0,
            divisible,
            whole,
        });
    }

    /// Begins a measured run whose total stands at a place.
    pub fn begin_run(&mut self, total: usize) {
        self.begin_holder(total, true);
    }

    /// Ends the innermost run or body, and writes its total.
    pub fn end_run(&mut self) {
        let number = self.holder();
        let end = self.place();
        let holder = &mut self.holders[number];
        holder.end = end;
        let Holder {
            total, from, whole, ..
        } = *holder;
        self.inside.pop();
        if let Some(total) = total {
            self.put(total, (end - from) as u64, 4);
        }
        if let Some(whole) = whole {
            self.marks[whole].size = end - from;
        }
    }

    /// A total and a measured run, to be ended by `end_run`.
    pub fn begin_list(&mut self) {
        let total = self.place();
        self.number(0, 4, Role::Length(1));
        self.begin_run(total);
    }

    /// Begins a block by its header; its fields follow, and then `end_block`.
    pub fn begin_block(&mut self, header: BlockHeader, number: u64) {
        self.block = number;
        self.layer = 1;
        self.opens = true;
        self.number(u64::from(header.id), 4, Role::BlockId(header.next));
        self.number(u64::from(header.namespace), 1, Role::Plain);
        self.number(u64::from(header.kind), 1, Role::Plain);
        self.number(u64::from(header.flags), 1, Role::BlockFlags);
        let total = self.place();
        self.number(0, 4, Role::Length(1));
        self.begin_holder(total, false);
        self.layer = 2;
    }

    pub fn end_block(&mut self) {
        self.end_run();
    }

    /// Begins an entry of a run. Inside another entry the outer one keeps its index.
    pub fn begin_entry(&mut self, index: u64) -> Outside {
        let outside = Outside {
            layer: self.layer,
            index: self.index,
        };
        self.opens = self.holders[self.holder()].divisible;
        self.layer = 3;
        self.index = self.index.or(Some(index));
        outside
    }

    pub fn end_entry(&mut self, outside: Outside) {
        self.layer = outside.layer;
        self.index = outside.index;
        self.opens = false;
    }

    /// Ends the whole: no field comes any more.
    pub fn finish(&mut self) {
        self.holders[0].end = self.place();
    }

    pub fn put(&mut self, place: usize, value: u64, size: usize) {
        put(&mut self.bytes, place, value, size);
    }
}

/// Writes a number over bytes.
pub fn put(bytes: &mut [u8], place: usize, value: u64, size: usize) {
    bytes[place..place + size].copy_from_slice(&value.to_le_bytes()[..size]);
}
