//! The bodies of blocks by their kinds.

use super::author::{Author, Block};
use super::writer::{Role, Target};

/// No joint is the parent.
const NO_JOINT: u64 = 0xffff;

impl Author<'_> {
    /// The body of a block of namespace 0. What it has is written into `block`.
    pub fn body(&mut self, block: &mut Block) {
        match block.kind {
            22 => self.scene_head(block),
            23 => self.mesh_instance(block),
            41 => self.light(block),
            51 => return self.light_picker(block),
            1 => return self.geometry(block),
            101 => return self.skeleton(block),
            _ => return self.carried(),
        }
        self.properties();
        self.user_list();
    }

    /// Any bytes.
    pub fn carried(&mut self) {
        let size = self.random.length(0, 20);
        let bytes = self.random.bytes(size);
        self.writer.unread(&bytes);
    }

    pub fn scene_head(&mut self, block: &mut Block) {
        let parent = self.lawful_address(Target::Parent).unwrap_or(0);
        block.parent = Some((self.writer.place() as u64, parent));
        self.writer
            .number(u64::from(parent), 4, Role::Address(Target::Parent));
        block.cells = Some(self.matrix());
        block.name = Some(self.text());
    }

    fn mesh_instance(&mut self, block: &mut Block) {
        self.scene_head(block);
        let geometry = self.lawful_address(Target::Geometry).unwrap_or(0);
        self.writer
            .number(u64::from(geometry), 4, Role::Address(Target::Geometry));
        block.materials = Some(self.addresses(Target::Material));
    }

    fn light(&mut self, block: &mut Block) {
        self.scene_head(block);
        let kind = 1 + self.random.below(2);
        self.writer.number(kind, 1, Role::LightType);
    }

    fn light_picker(&mut self, block: &mut Block) {
        block.name = Some(self.text());
        self.addresses(Target::Light);
        self.user_list();
    }

    fn geometry(&mut self, block: &mut Block) {
        block.name = Some(self.text());
        let count = self.entries();
        self.writer.number(count, 2, Role::Plain);
        self.properties();
        for index in 0..count {
            let streams = self.streams();
            self.sub_geometry(index, &streams);
        }
        self.user_list();
    }

    fn skeleton(&mut self, block: &mut Block) {
        block.name = Some(self.text());
        let count = self.entries();
        self.writer.number(count, 2, Role::Plain);
        self.properties();
        for index in 0..count {
            self.joint(index);
        }
        self.user_list();
    }

    pub fn joint(&mut self, id: u64) {
        let outside = self.writer.begin_entry(id);
        self.writer.number(id, 2, Role::JointId);
        let parent = if id == 0 || self.random.once_in(3) {
            NO_JOINT
        } else {
            self.random.below(id)
        };
        self.writer.number(parent, 2, Role::JointParent(id as u16));
        self.text();
        self.matrix();
        self.properties();
        self.user_list();
        self.writer.end_entry(outside);
    }
}
