//! The texts of causes, which the second reader does not know: exactly the causes have one, and it is written as far
//! as there is room for it.

use crate::interface::Interface;

/// More than any text has.
const ROOM: usize = 500;
const UNUSED: u8 = 0xee;
const CAUSES: std::ops::RangeInclusive<u8> = 1..=28;

/// Asks for the text of every number in rooms of several sizes, and tells how many times it asked.
pub fn check(reader: &dyn Interface) -> Result<u64, String> {
    let mut texts: Vec<Vec<u8>> = Vec::new();
    let mut asked = 0;
    for cause in 0..=u8::MAX {
        let (length, buffer) = ask(reader, cause, ROOM);
        let text = buffer
            .get(..length)
            .ok_or(format!("cause {cause}: {length} bytes"))?;
        if CAUSES.contains(&cause) == text.is_empty() {
            return Err(format!(
                "cause {cause}: {:?}",
                String::from_utf8_lossy(text)
            ));
        }
        for room in [
            0,
            1,
            length / 2,
            length.saturating_sub(1),
            length,
            length + 1,
            ROOM,
        ] {
            written(cause, text, room, &ask(reader, cause, room))?;
            asked += 1;
        }
        texts.push(text.to_vec());
    }
    texts.retain(|text| !text.is_empty());
    different(texts).map(|()| asked)
}

/// The texts are plain, and no two of them are the same.
fn different(mut texts: Vec<Vec<u8>>) -> Result<(), String> {
    let plain = |text: &Vec<u8>| text.iter().all(|byte| (b' '..=b'~').contains(byte));
    if let Some(text) = texts.iter().find(|text| !plain(text)) {
        return Err(format!("no plain text: {text:02x?}"));
    }
    texts.sort();
    let same = texts.windows(2).find(|pair| pair[0] == pair[1]);
    same.map_or(Ok(()), |pair| {
        Err(format!(
            "two causes have the text {:?}",
            String::from_utf8_lossy(&pair[0])
        ))
    })
}

/// The length that is told for a cause, and the buffer then.
fn ask(reader: &dyn Interface, cause: u8, room: usize) -> (usize, Vec<u8>) {
    let mut buffer = vec![UNUSED; room];
    let length = reader.cause_text(cause, &mut buffer);
    (usize::try_from(length).unwrap_or(usize::MAX), buffer)
}

fn written(
    cause: u8,
    text: &[u8],
    room: usize,
    (length, buffer): &(usize, Vec<u8>),
) -> Result<(), String> {
    let mut whole = text.to_vec();
    whole.resize(room.max(text.len()), UNUSED);
    if *length == text.len() && buffer[..] == whole[..room] {
        return Ok(());
    }
    Err(format!(
        "cause {cause}, room {room}: length {length}, buffer {buffer:02x?}"
    ))
}
