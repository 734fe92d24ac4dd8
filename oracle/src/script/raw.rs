//! Frames as their bytes are, right or wrong: every field can be set to what a reader must refuse.

pub const CAN: u8 = 1;
pub const LIN: u8 = 2;
pub const FLEXRAY: u8 = 3;
pub const KINDS: [u8; 3] = [CAN, LIN, FLEXRAY];

pub const STATE: u8 = 4;
pub const ID: u8 = 2;
pub const PAYLOAD: u8 = 1;
/// The four flag sets that a frame may carry, as bits 7 to 5 of the flag byte.
pub const FLAG_SETS: [u8; 4] = [ID | PAYLOAD, STATE | ID | PAYLOAD, STATE | ID, STATE];

/// An absent field is an empty one.
#[derive(Clone)]
pub struct RawItem {
    pub offset: u16,
    pub flags: u8,
    pub kind: u8,
    pub network: u8,
    pub state: Vec<u8>,
    pub id: Vec<u8>,
    pub length: Vec<u8>,
    pub payload: Vec<u8>,
}

impl RawItem {
    pub fn bytes(&self) -> Vec<u8> {
        let mut out = self.offset.to_be_bytes().to_vec();
        out.push(self.flags << 5 | self.kind);
        out.push(self.network);
        for part in [&self.state, &self.id, &self.length, &self.payload] {
            out.extend_from_slice(part);
        }
        out
    }

    pub fn set_payload(&mut self, payload: Vec<u8>) {
        self.length = vec![payload.len() as u8];
        self.payload = payload;
    }
}

#[derive(Clone)]
pub struct RawFrame {
    pub version: u8,
    pub sequence: u8,
    pub seconds: u64,
    pub nanos: u32,
    /// How far DataLength is from the truth.
    pub length_error: u16,
    pub items: Vec<RawItem>,
}

impl RawFrame {
    pub fn bytes(&self) -> Vec<u8> {
        let data: Vec<u8> = self.items.iter().flat_map(RawItem::bytes).collect();
        self.bytes_around(&data)
    }

    /// The header, with the DataLength of the given bytes, and those bytes.
    pub fn bytes_around(&self, data: &[u8]) -> Vec<u8> {
        let mut out = vec![self.version, self.sequence];
        out.extend_from_slice(&self.seconds.to_be_bytes()[2..]);
        out.extend_from_slice(&self.nanos.to_be_bytes());
        let length = (data.len() as u16).wrapping_add(self.length_error);
        out.extend_from_slice(&length.to_be_bytes());
        out.extend_from_slice(data);
        out
    }

    /// Where the items start, and the end.
    pub fn places(&self) -> Vec<u64> {
        let mut at = 14;
        let mut places = vec![at];
        for item in &self.items {
            at += item.bytes().len() as u64;
            places.push(at);
        }
        places
    }
}
