//! Sub-geometries and their streams.

use super::author::Author;
use super::writer::{Role, Writer};

/// A stream that is to be written: its type, and so many items, which for faces are these indices.
#[derive(Clone, Debug, Default)]
pub struct Stream {
    pub kind: u8,
    pub items: usize,
    pub indices: Vec<u16>,
}

impl Stream {
    pub fn new(kind: u8, items: usize) -> Self {
        Self {
            kind,
            items,
            indices: Vec::new(),
        }
    }

    pub fn faces(indices: &[u16]) -> Self {
        Self {
            kind: 2,
            items: 0,
            indices: indices.to_vec(),
        }
    }
}

/// The size of an item of a stream of this type, for coordinates of this width.
pub fn item_size(kind: u8, width: usize) -> usize {
    match kind {
        1 | 4 => 3 * width,
        2 => 6,
        3 => 2 * width,
        _ => 1,
    }
}

impl Author<'_> {
    /// Lawful streams of a sub-geometry, in any order.
    pub fn streams(&mut self) -> Vec<Stream> {
        let mut streams = Vec::new();
        for _ in 0..self.entries() {
            let kind = self.random.pick(&[0, 3, 3, 4, 4, 5, 6, 7, 8, 255]);
            streams.push(Stream::new(kind, self.random.index(4)));
        }
        if !self.random.once_in(3) {
            let vertices = self.random.index(6);
            streams.push(Stream::new(1, vertices));
            if self.random.once_in(2) {
                streams.push(self.faces(vertices));
            }
        }
        self.random.shuffle(&mut streams);
        streams
    }

    /// Lawful faces of so many vertices.
    fn faces(&mut self, vertices: usize) -> Stream {
        let faces = if vertices == 0 {
            0
        } else {
            self.random.index(4)
        };
        let indices: Vec<u16> = (0..3 * faces)
            .map(|_| self.random.index(vertices) as u16)
            .collect();
        Stream::faces(&indices)
    }

    pub fn sub_geometry(&mut self, index: u64, streams: &[Stream]) {
        let outside = self.writer.begin_entry(index);
        let total = self.writer.place();
        let total_mark = self.writer.marks.len();
        self.writer.number(0, 4, Role::Plain);
        self.properties();
        self.writer.marks[total_mark].role = Role::Total(self.writer.holders.len());
        self.writer.begin_run(total);
        let vertices = streams
            .iter()
            .find(|stream| stream.kind == 1)
            .map_or(0, |stream| stream.items as u64);
        for (number, stream) in (0..).zip(streams) {
            let entry = self.writer.begin_entry(number);
            self.stream(stream, vertices);
            self.writer.end_entry(entry);
        }
        self.writer.end_run();
        self.user_list();
        self.writer.end_entry(outside);
    }

    fn stream(&mut self, stream: &Stream, vertices: u64) {
        let item = item_size(stream.kind, self.geometry_width);
        let code = self.random.byte();
        let size = stream.items * item + 2 * stream.indices.len();
        let header = |writer: &mut Writer| {
            writer.number(u64::from(stream.kind), 1, Role::StreamType);
            writer.number(u64::from(code), 1, Role::Plain);
            writer.number(size as u64, 4, Role::Length(item as u32));
        };
        header(&mut self.writer);
        if stream.kind == 2 {
            self.writer.indices(&stream.indices, vertices);
        } else {
            let bytes = self.random.bytes(size);
            self.writer.raw(&bytes);
        }
    }
}
