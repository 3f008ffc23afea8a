//! Memory lent to a call: filled with a pattern, with guard bytes on both sides, so that every byte which a call
//! should have left alone can be told from one it wrote.

const GUARD: usize = 64;

pub struct Lent {
    bytes: Vec<u8>,
    before: Vec<u8>,
}

impl Lent {
    /// A buffer of so many bytes. Patterns of unlike `seed` differ at every byte when their seeds' bits all differ,
    /// so a byte that one pattern hides shows under another.
    pub fn new(room: usize, seed: u8) -> Lent {
        let before: Vec<u8> =
            (0..room + 2 * GUARD).map(|i| (i as u8).wrapping_mul(37).wrapping_add(11) ^ seed).collect();
        Lent { bytes: before.clone(), before }
    }

    pub fn room(&mut self) -> &mut [u8] {
        let end = self.bytes.len() - GUARD;
        &mut self.bytes[GUARD..end]
    }

    /// The bytes of the room as they are now.
    pub fn now(&self) -> &[u8] {
        &self.bytes[GUARD..self.bytes.len() - GUARD]
    }

    /// Everything, guards and all.
    pub fn whole(&self) -> &[u8] {
        &self.bytes
    }

    /// What is wrong, if the room does not begin with `written` or anything else has changed.
    pub fn fault(&self, written: &[u8]) -> Option<String> {
        let room = self.bytes.len() - 2 * GUARD;
        if written.len() > room {
            return Some(format!("{} bytes are due but the room has {room}", written.len()));
        }
        for (offset, byte) in self.bytes.iter().enumerate() {
            let at = offset as i64 - GUARD as i64;
            let due = match usize::try_from(at).ok().and_then(|at| written.get(at)) {
                Some(byte) => *byte,
                None => self.before[offset],
            };
            if *byte != due {
                let what = if at < 0 || at >= room as i64 {
                    "guard byte"
                } else if at < written.len() as i64 {
                    "written byte"
                } else {
                    "byte past what is written"
                };
                return Some(format!("lent memory: {what} {at} is {byte:02x}, due {due:02x}"));
            }
        }
        None
    }
}

pub fn hex(bytes: &[u8]) -> String {
    bytes.iter().map(|byte| format!("{byte:02x}")).collect()
}
