//! Blocks: their headers, and their bodies by kind.

use crate::attributes::{numeric, user};
use crate::fault::{Cause, Fault, Refusal};
use crate::fields::Reader;
use crate::geometry::sub_geometry;
use crate::header::{Header, Widths};
use crate::roster::{CELLS, Head, Materials, Named, Record, Roster, Taken};
use crate::source::Source;

const COMPRESSED: u8 = 1 << 3;
const NO_JOINT: u16 = 65_535;

/// The header of a block.
struct BlockHeader {
    id: u32,
    namespace: u8,
    kind: u8,
    flags: u8,
    size: u32,
}

/// What is found in a body.
#[derive(Default)]
struct Found {
    parent: Option<u32>,
    name: Option<(u64, u16)>,
    head: Option<Head>,
    materials: Option<Materials>,
}

/// Reads the block that begins at a place, behind those of a roster. Answers the place of its end, too.
pub(crate) fn read<S: Source>(
    source: &S,
    place: u64,
    header: Header,
    before: &Roster,
) -> Result<(Taken, u64), Fault> {
    let number = before.count();
    let mut document = Reader::new(source, place, source.length());
    let framed = frame(&mut document, before);
    let (block, mut body) = framed.map_err(|refusal| refusal.of_header(number))?;
    let widths = header.widths(block.flags);
    let found = match block.namespace {
        0 => by_kind(block.kind, &mut body, widths, before),
        _ => carried(&mut body),
    };
    let found = found.map_err(|refusal| refusal.of_body(number))?;
    if !body.is_done() {
        return Err(Refusal::new(Cause::BytesLeftOver, body.place()).of_header(number));
    }
    Ok((taken(place, block, found), document.place()))
}

/// The block at a place, of which all is read.
fn taken(place: u64, block: BlockHeader, found: Found) -> Taken {
    let BlockHeader {
        id,
        namespace,
        kind,
        size,
        ..
    } = block;
    let Found {
        parent,
        name,
        head,
        materials,
    } = found;
    let record = Record {
        id,
        namespace,
        kind,
        place,
        size,
        parent,
        name,
    };
    Taken {
        record,
        head,
        materials,
    }
}

/// Reads a block's header and passes over its body, which has a reader of its own.
fn frame<'a, S: Source>(
    document: &mut Reader<'a, S>,
    before: &Roster,
) -> Result<(BlockHeader, Reader<'a, S>), Refusal> {
    let place = document.place();
    let id = document.u32()?;
    if !before.may_follow(id) {
        return Err(Refusal::new(Cause::IdOutOfSequence, place));
    }
    let namespace = document.u8()?;
    let kind = document.u8()?;
    let place = document.place();
    let flags = document.u8()?;
    if flags & COMPRESSED != 0 {
        return Err(Refusal::new(Cause::CompressedBlock, place));
    }
    let size = document.u32()?;
    let body = document.run(size.into())?;
    Ok((
        BlockHeader {
            id,
            namespace,
            kind,
            flags,
            size,
        },
        body,
    ))
}

fn by_kind<S: Source>(
    kind: u8,
    body: &mut Reader<S>,
    widths: Widths,
    before: &Roster,
) -> Result<Found, Refusal> {
    match kind {
        22 => container(body, widths, before),
        23 => mesh_instance(body, widths, before),
        41 => light(body, widths, before),
        51 => light_picker(body, before),
        1 => geometry(body, widths),
        101 => skeleton(body, widths),
        _ => carried(body),
    }
}

/// A body of any bytes.
fn carried<S: Source>(body: &mut Reader<S>) -> Result<Found, Refusal> {
    body.skip_rest();
    Ok(Found::default())
}

fn container<S: Source>(
    body: &mut Reader<S>,
    widths: Widths,
    before: &Roster,
) -> Result<Found, Refusal> {
    let found = scene_head(body, widths, before)?;
    body.list(numeric)?;
    body.list(user)?;
    Ok(found)
}

fn mesh_instance<S: Source>(
    body: &mut Reader<S>,
    widths: Widths,
    before: &Roster,
) -> Result<Found, Refusal> {
    let found = scene_head(body, widths, before)?;
    address(body, Named::Geometry, before)?;
    let count = body.u16()?;
    let place = body.place();
    addresses(body, count, Named::Material, before)?;
    body.list(numeric)?;
    body.list(user)?;
    Ok(Found {
        materials: Some(Materials { place, count }),
        ..found
    })
}

fn light<S: Source>(
    body: &mut Reader<S>,
    widths: Widths,
    before: &Roster,
) -> Result<Found, Refusal> {
    let found = scene_head(body, widths, before)?;
    let place = body.place();
    if !matches!(body.u8()?, 1 | 2) {
        return Err(Refusal::new(Cause::ValueNotAllowed, place));
    }
    body.list(numeric)?;
    body.list(user)?;
    Ok(found)
}

fn light_picker<S: Source>(body: &mut Reader<S>, before: &Roster) -> Result<Found, Refusal> {
    let name = Some(body.text()?);
    let count = body.u16()?;
    addresses(body, count, Named::Light, before)?;
    body.list(user)?;
    Ok(Found {
        name,
        ..Found::default()
    })
}

fn geometry<S: Source>(body: &mut Reader<S>, widths: Widths) -> Result<Found, Refusal> {
    let name = Some(body.text()?);
    let count = body.u16()?;
    body.list(numeric)?;
    for index in 0..count.into() {
        sub_geometry(body, widths.geometry).map_err(|refusal| refusal.inside(index))?;
    }
    body.list(user)?;
    Ok(Found {
        name,
        ..Found::default()
    })
}

fn skeleton<S: Source>(body: &mut Reader<S>, widths: Widths) -> Result<Found, Refusal> {
    let name = Some(body.text()?);
    let count = body.u16()?;
    body.list(numeric)?;
    for index in 0..count {
        joint(body, index, widths).map_err(|refusal| refusal.inside(index.into()))?;
    }
    body.list(user)?;
    Ok(Found {
        name,
        ..Found::default()
    })
}

fn joint<S: Source>(body: &mut Reader<S>, index: u16, widths: Widths) -> Result<(), Refusal> {
    let place = body.place();
    if body.u16()? != index {
        return Err(Refusal::new(Cause::ValueNotAllowed, place));
    }
    let place = body.place();
    let parent = body.u16()?;
    if parent != NO_JOINT && parent >= index {
        return Err(Refusal::new(Cause::ValueNotAllowed, place));
    }
    body.text()?;
    body.fields(CELLS, widths.matrix)?;
    body.list(numeric)?;
    body.list(user)
}

/// Reads a scene head: the address of a parent, a matrix and a name.
fn scene_head<S: Source>(
    body: &mut Reader<S>,
    widths: Widths,
    before: &Roster,
) -> Result<Found, Refusal> {
    let place = body.place();
    let parent = Some(address(body, Named::Parent, before)?);
    let matrix = body.fields(CELLS, widths.matrix)?;
    let name = Some(body.text()?);
    let head = Some(Head {
        parent: place,
        matrix,
        width: widths.matrix,
    });
    Ok(Found {
        parent,
        name,
        head,
        materials: None,
    })
}

fn address<S: Source>(body: &mut Reader<S>, named: Named, before: &Roster) -> Result<u32, Refusal> {
    let place = body.place();
    let address = body.u32()?;
    if !before.is_lawful(address, named, before.count()) {
        return Err(Refusal::new(Cause::AddressNotLawful, place));
    }
    Ok(address)
}

fn addresses<S: Source>(
    body: &mut Reader<S>,
    count: u16,
    named: Named,
    before: &Roster,
) -> Result<(), Refusal> {
    for index in 0..count.into() {
        address(body, named, before).map_err(|refusal| refusal.inside(index))?;
    }
    Ok(())
}
