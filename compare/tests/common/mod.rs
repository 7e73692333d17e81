//! Documents for the tests, put together byte by byte.
#![allow(dead_code, reason = "each test file uses some of these")]

use compare::fault::Fault;
use compare::session::Session;
use compare::source::{Run, Source, copy};

/// A list without entries: its total is 0.
pub const NO_LIST: [u8; 4] = [0; 4];

/// A document of version 2.1 with blocks behind its header.
pub fn document(flags: u16, blocks: &[impl AsRef<[u8]>]) -> Vec<u8> {
    let body: Vec<u8> = blocks
        .iter()
        .flat_map(|block| block.as_ref())
        .copied()
        .collect();
    let mut bytes = b"AWD\x02\x01".to_vec();
    bytes.extend(flags.to_le_bytes());
    bytes.push(0);
    bytes.extend((body.len() as u32).to_le_bytes());
    bytes.extend(body);
    bytes
}

/// A block of namespace 0, without flags.
pub fn block(id: u32, kind: u8, body: &[u8]) -> Vec<u8> {
    sized_block(id, kind, body.len() as u32, body)
}

/// A block whose header states any size.
pub fn sized_block(id: u32, kind: u8, size: u32, body: &[u8]) -> Vec<u8> {
    let mut bytes = id.to_le_bytes().to_vec();
    bytes.extend([0, kind, 0]);
    bytes.extend(size.to_le_bytes());
    bytes.extend(body);
    bytes
}

/// The same block with other flags.
pub fn flagged(flags: u8, mut block: Vec<u8>) -> Vec<u8> {
    block[6] = flags;
    block
}

/// The same block in another namespace.
pub fn foreign(namespace: u8, mut block: Vec<u8>) -> Vec<u8> {
    block[4] = namespace;
    block
}

/// A scene head: a parent, a matrix of zeros and a name.
pub fn head(parent: u32, width: usize, name: &str) -> Vec<u8> {
    let mut bytes = parent.to_le_bytes().to_vec();
    bytes.extend(vec![0; 12 * width]);
    bytes.extend(text(name));
    bytes
}

pub fn text(text: &str) -> Vec<u8> {
    let mut bytes = (text.len() as u16).to_le_bytes().to_vec();
    bytes.extend(text.as_bytes());
    bytes
}

/// A count of addresses, and the addresses.
pub fn addresses(addresses: &[u32]) -> Vec<u8> {
    let mut bytes = (addresses.len() as u16).to_le_bytes().to_vec();
    bytes.extend(addresses.iter().flat_map(|address| address.to_le_bytes()));
    bytes
}

pub fn container(id: u32, parent: u32, name: &str) -> Vec<u8> {
    block(id, 22, &[head(parent, 4, name), vec![0; 8]].concat())
}

pub fn mesh(id: u32, parent: u32, geometry: u32, materials: &[u32]) -> Vec<u8> {
    let geometry = geometry.to_le_bytes().to_vec();
    block(
        id,
        23,
        &[
            head(parent, 4, ""),
            geometry,
            addresses(materials),
            vec![0; 8],
        ]
        .concat(),
    )
}

pub fn light(id: u32, parent: u32, kind: u8) -> Vec<u8> {
    block(
        id,
        41,
        &[head(parent, 4, ""), vec![kind], vec![0; 8]].concat(),
    )
}

pub fn picker(id: u32, lights: &[u32]) -> Vec<u8> {
    block(
        id,
        51,
        &[text(""), addresses(lights), NO_LIST.to_vec()].concat(),
    )
}

/// A fault with all that it tells; the index only in layer 3.
pub fn fault(cause: u8, place: u64, block: u64, layer: u8, index: Option<u64>) -> Fault {
    Fault {
        cause,
        place,
        block,
        layer,
        index,
    }
}

/// The fault of a call that is refused as a whole.
pub fn call_fault(cause: u8, block: u64) -> Fault {
    fault(cause, 0, block, 4, None)
}

/// An opened session in which blocks are taken until none is left or one is refused.
pub fn read(bytes: &[u8]) -> (Session<Run<'_>>, Result<(), Fault>) {
    let mut session = Session::new(Run::new(bytes));
    session.open().unwrap();
    let end = take_all(&mut session);
    (session, end)
}

pub fn take_all<S: Source>(session: &mut Session<S>) -> Result<(), Fault> {
    while session.next()?.is_some() {}
    Ok(())
}

/// The fault that ends the reading of a document.
pub fn fault_of(flags: u16, blocks: &[impl AsRef<[u8]>]) -> Fault {
    let bytes = document(flags, blocks);
    let (mut session, end) = read(&bytes);
    let fault = end.unwrap_err();
    assert_eq!(session.next(), Err(fault), "the same fault comes again");
    fault
}

/// Whether a document is read to its end.
pub fn is_read(flags: u16, blocks: &[impl AsRef<[u8]>]) -> bool {
    read(&document(flags, blocks)).1.is_ok()
}

/// All bytes of a source.
pub fn all<S: Source>(source: &S) -> Vec<u8> {
    let mut bytes = vec![0; source.length() as usize];
    copy(source, &mut bytes).unwrap();
    bytes
}
