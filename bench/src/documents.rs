//! Documents for the rows, made by docs/FORMAT.md, most of them of an exact length.

pub const CARRIED: u8 = 200;
pub const GEOMETRY: u8 = 1;
pub const PRIMITIVE: u8 = 11;
pub const CONTAINER: u8 = 22;
pub const MESH: u8 = 23;
pub const LIGHT: u8 = 41;
pub const PICKER: u8 = 51;
pub const MATERIAL: u8 = 81;
pub const SKELETON: u8 = 101;

const DOCUMENT_HEADER: usize = 12;
const BLOCK_HEADER: usize = 11;
const STREAM_HEADER: usize = 6;

/// Bit 4 of a document's flags leaves the widths to each block.
const OWN_WIDTHS: u16 = 1 << 4;
/// In a block's flags, bit 0 is the width of matrix cells and bit 1 that of coordinates.
pub const WIDE_MATRIX: u8 = 1;
pub const WIDE_COORDINATES: u8 = 2;

/// Numbers that look random and are the same in every run (splitmix64).
pub struct Numbers(u64);

impl Numbers {
    pub fn new(seed: u64) -> Numbers {
        Numbers(seed)
    }

    pub fn below(&mut self, limit: u64) -> u64 {
        self.0 = self.0.wrapping_add(0x9e37_79b9_7f4a_7c15);
        let mut mixed = self.0;
        mixed = (mixed ^ (mixed >> 30)).wrapping_mul(0xbf58_476d_1ce4_e5b9);
        mixed = (mixed ^ (mixed >> 27)).wrapping_mul(0x94d0_49bb_1331_11eb);
        (mixed ^ (mixed >> 31)) % limit
    }
}

/// Fields, written one behind another.
#[derive(Default)]
pub struct Fields(Vec<u8>);

impl Fields {
    pub fn byte(mut self, value: u8) -> Fields {
        self.0.push(value);
        self
    }

    pub fn two(mut self, value: u16) -> Fields {
        self.0.extend(value.to_le_bytes());
        self
    }

    pub fn four(mut self, value: u32) -> Fields {
        self.0.extend(value.to_le_bytes());
        self
    }

    pub fn bytes(mut self, bytes: &[u8]) -> Fields {
        self.0.extend(bytes);
        self
    }

    pub fn zeros(mut self, count: usize) -> Fields {
        self.0.resize(self.0.len() + count, 0);
        self
    }

    pub fn text(self, text: &str) -> Fields {
        self.two(text.len() as u16).bytes(text.as_bytes())
    }

    /// A total and what it counts.
    pub fn list(self, entries: Fields) -> Fields {
        self.four(entries.0.len() as u32).bytes(&entries.0)
    }

    /// Empty properties or an empty user list.
    pub fn no_list(self) -> Fields {
        self.list(Fields::default())
    }

    pub fn addresses(self, addresses: &[u32]) -> Fields {
        let count = self.two(addresses.len() as u16);
        addresses.iter().fold(count, |fields, &address| fields.four(address))
    }

    /// The address of a parent, a matrix and a name.
    pub fn scene_head(self, parent: u32, flags: u8, name: &str) -> Fields {
        let mut fields = self.four(parent);
        for cell in 0..12u8 {
            let value = f32::from(cell) / 8.0;
            fields = if flags & WIDE_MATRIX == 0 {
                fields.bytes(&value.to_le_bytes())
            } else {
                fields.bytes(&f64::from(value).to_le_bytes())
            };
        }
        fields.text(name)
    }

    pub fn numeric_attribute(self, key: u16, value: &[u8]) -> Fields {
        self.two(key).four(value.len() as u32).bytes(value)
    }

    pub fn user_attribute(self, key: &str, value_type: u8, value: &[u8]) -> Fields {
        self.byte(0).text(key).byte(value_type).four(value.len() as u32).bytes(value)
    }

    fn stream(self, stream_type: u8, bytes: &[u8]) -> Fields {
        self.byte(stream_type).byte(0).four(bytes.len() as u32).bytes(bytes)
    }
}

/// A document while it is written.
pub struct Document {
    bytes: Vec<u8>,
    next_id: u32,
}

impl Document {
    pub fn new() -> Document {
        let header = Fields::default().bytes(b"AWD").byte(2).byte(1).two(OWN_WIDTHS).byte(0).four(0);
        Document {
            bytes: header.0,
            next_id: 1,
        }
    }

    /// Adds a block and tells its ID.
    pub fn block(&mut self, kind: u8, flags: u8, body: Fields) -> u32 {
        let id = self.next_id;
        self.next_id += 1;
        let header = Fields::default().four(id).byte(0).byte(kind).byte(flags).four(body.0.len() as u32);
        self.bytes.extend(header.0);
        self.bytes.extend(body.0);
        id
    }

    pub fn container(&mut self, parent: u32, flags: u8) -> u32 {
        let body = Fields::default().scene_head(parent, flags, "cupboard").no_list().no_list();
        self.block(CONTAINER, flags, body)
    }

    /// A block of any bytes that has so many bytes in all.
    pub fn carried(&mut self, size: usize) {
        let mut numbers = Numbers::new(size as u64);
        let body: Vec<u8> = (0..size - BLOCK_HEADER).map(|_| numbers.below(256) as u8).collect();
        self.block(CARRIED, 0, Fields(body));
    }

    pub fn length(&self) -> usize {
        self.bytes.len()
    }

    pub fn finish(mut self) -> Vec<u8> {
        let body = (self.bytes.len() - DOCUMENT_HEADER) as u32;
        self.bytes[8..12].copy_from_slice(&body.to_le_bytes());
        self.bytes
    }
}

/// A sub-geometry of so many bytes: as many vertices as there is room for, each with a normal, texture coordinates and two faces, and the bytes
/// that are left over in a stream of another type.
fn sub_geometry(size: usize, coordinate: usize) -> Fields {
    let room = size - 12 - 5 * STREAM_HEADER;
    let vertices = (room / (8 * coordinate + 12)).min(65_535);
    let mut numbers = Numbers::new(size as u64);
    let mut content = |count: usize| -> Vec<u8> { (0..count).map(|_| numbers.below(256) as u8).collect() };
    let places = content(3 * coordinate * vertices);
    let normals = content(3 * coordinate * vertices);
    let texture = content(2 * coordinate * vertices);
    let left = content(room - vertices * (8 * coordinate + 12));
    let faces: Vec<u8> = (0..6 * vertices)
        .flat_map(|_| (numbers.below(vertices as u64) as u16).to_le_bytes())
        .collect();
    let streams = Fields::default()
        .stream(1, &places)
        .stream(2, &faces)
        .stream(4, &normals)
        .stream(3, &texture)
        .stream(5, &left);
    Fields::default().four(streams.0.len() as u32).no_list().bytes(&streams.0).no_list()
}

/// A geometry block of so many bytes in all, in sub-geometries of at most two mebibytes.
fn geometry(document: &mut Document, size: usize, flags: u8) {
    let coordinate = if flags & WIDE_COORDINATES == 0 { 4 } else { 8 };
    let room = size - BLOCK_HEADER - 2 - 2 - 4 - 4;
    let count = room.div_ceil(2 << 20);
    let mut body = Fields::default().text("").two(count as u16).no_list();
    for index in 0..count {
        let share = room * (index + 1) / count - room * index / count;
        body = body.bytes(&sub_geometry(share, coordinate).0);
    }
    document.block(GEOMETRY, flags, body.no_list());
}

/// Four large geometries, of narrow and of wide coordinates in turn.
pub fn geometries(size: usize) -> Vec<u8> {
    let mut document = Document::new();
    for index in 0..4 {
        let share = (size - document.length()) / (4 - index);
        geometry(&mut document, share, [0, WIDE_COORDINATES][index % 2]);
    }
    document.finish()
}

pub const SCENE_CONTAINERS: usize = 22;

/// Containers at the root, of narrow and of wide matrices in turn, each with a carried block behind it. The containers have even numbers.
pub fn scene(size: usize) -> Vec<u8> {
    let mut document = Document::new();
    for index in 0..SCENE_CONTAINERS {
        let share = (size - document.length()) / (SCENE_CONTAINERS - index);
        let start = document.length();
        document.container(0, matrix_flags(index));
        let used = document.length() - start;
        document.carried(share - used);
    }
    document.finish()
}

/// The flags of a container of a scene.
pub fn matrix_flags(index: usize) -> u8 {
    if index.is_multiple_of(2) { 0 } else { WIDE_MATRIX }
}

/// So many materials and nothing else.
pub fn materials(count: usize) -> Vec<u8> {
    let mut document = Document::new();
    for _ in 0..count {
        document.block(MATERIAL, 0, Fields::default());
    }
    document.finish()
}

/// A primitive and 509 materials, and behind them a mesh instance with so many addresses of these.
pub fn many_addresses(count: usize) -> Vec<u8> {
    let mut document = Document::new();
    let primitive = document.block(PRIMITIVE, 0, Fields::default());
    for _ in 0..509 {
        document.block(MATERIAL, 0, Fields::default());
    }
    let mut numbers = Numbers::new(4);
    let addresses: Vec<u32> = (0..count).map(|_| 2 + numbers.below(509) as u32).collect();
    mesh(&mut document, 0, primitive, &addresses);
    document.finish()
}

fn mesh(document: &mut Document, parent: u32, geometry: u32, materials: &[u32]) -> u32 {
    let body = Fields::default()
        .scene_head(parent, 0, "door")
        .four(geometry)
        .addresses(materials)
        .no_list()
        .no_list();
    document.block(MESH, 0, body)
}

/// Containers, each in the one before.
pub fn deep(count: usize) -> Vec<u8> {
    let mut document = Document::new();
    let mut parent = 0;
    for _ in 0..count {
        parent = document.container(parent, 0);
    }
    document.finish()
}

/// 64 groups of eight small blocks, one of each kind.
pub fn small_blocks() -> Vec<u8> {
    let mut document = Document::new();
    let mut parent = 0;
    for group in 0..64u8 {
        let primitive = document.block(PRIMITIVE, 0, Fields::default().text("box").zeros(20));
        let material = document.block(MATERIAL, 0, Fields::default().text("oak").zeros(30));
        document.block(GEOMETRY, group % 4, small_geometry(group));
        parent = document.block(CONTAINER, group % 2, small_container(parent, group));
        mesh(&mut document, parent, primitive, &[material, 0]);
        let light = document.block(LIGHT, group % 2, small_light(parent, group));
        let picker = Fields::default().text("lamps").addresses(&[light]).no_list();
        document.block(PICKER, 0, picker);
        document.block(SKELETON, group % 2, small_skeleton(group % 2));
        if group % 8 == 7 {
            parent = 0;
        }
    }
    document.finish()
}

fn small_container(parent: u32, group: u8) -> Fields {
    let properties = Fields::default().numeric_attribute(5, &[group]);
    let user = Fields::default()
        .user_attribute("maker", 31, b"Vudzsore")
        .user_attribute("width", 7, &600f32.to_le_bytes())
        .user_attribute("left", 21, &[1]);
    Fields::default()
        .scene_head(parent, group % 2, "cupboard")
        .list(properties)
        .list(user)
}

fn small_light(parent: u32, group: u8) -> Fields {
    let properties = Fields::default().numeric_attribute(1, &[0; 4]).numeric_attribute(2, &[0; 4]);
    Fields::default()
        .scene_head(parent, group % 2, "lamp")
        .byte(1 + group % 2)
        .list(properties)
        .no_list()
}

fn small_geometry(group: u8) -> Fields {
    let coordinate = if group & WIDE_COORDINATES == 0 { 4 } else { 8 };
    let user = Fields::default().user_attribute("id", 6, &7u32.to_le_bytes());
    Fields::default()
        .text("panel")
        .two(1)
        .no_list()
        .bytes(&sub_geometry(300, coordinate).0)
        .list(user)
}

fn small_skeleton(flags: u8) -> Fields {
    let mut body = Fields::default().text("hinge").two(2).no_list();
    for joint in 0..2u16 {
        let parent = if joint == 0 { u16::MAX } else { 0 };
        let matrix = if flags & WIDE_MATRIX == 0 { 48 } else { 96 };
        body = body.two(joint).two(parent).text("pin").zeros(matrix).no_list().no_list();
    }
    body.no_list()
}
