//! Frames of baidu_std: a buffer that is reused, and frames seen where they lie.

pub struct Request {
    pub service: Vec<u8>,
    pub method: Vec<u8>,
}

pub struct Meta {
    pub request: Option<Request>,
    pub id: u64,
    pub attachment: i32,
}

/// The meta of a frame, its payload and its attachment.
pub type Frame<'a> = (Meta, &'a [u8], &'a [u8]);

fn put(out: &mut Vec<u8>, mut n: u64) {
    while n >= 0x80 {
        out.push(n as u8 | 0x80);
        n >>= 7;
    }
    out.push(n as u8);
}

fn size(mut n: u64) -> usize {
    let mut size = 1;
    while n >= 0x80 {
        n >>= 7;
        size += 1;
    }
    size
}

// A frame is begun by its header, whose sizes are written last. These are inlined, since each does little.
#[inline(always)]
fn begin(out: &mut Vec<u8>) -> usize {
    let at = out.len();
    out.extend_from_slice(b"PRPC\0\0\0\0\0\0\0\0");
    at
}

#[inline(always)]
fn put_request(out: &mut Vec<u8>, r: &Request) {
    let (s, m) = (r.service.len(), r.method.len());
    out.push(0x0a);
    put(out, (1 + size(s as u64) + s + 1 + size(m as u64) + m) as u64);
    out.push(0x0a);
    put(out, s as u64);
    out.extend_from_slice(&r.service);
    out.push(0x12);
    put(out, m as u64);
    out.extend_from_slice(&r.method);
}

#[inline(always)]
fn put_id(out: &mut Vec<u8>, id: u64, attachment: i32) {
    out.push(0x20);
    put(out, id);
    if attachment != 0 {
        out.push(0x28);
        put(out, attachment as i64 as u64);
    }
}

#[inline(always)]
fn finish(out: &mut Vec<u8>, at: usize, payload: &[u8], attachment: &[u8]) {
    let meta_size = (out.len() - at - 12) as u32;
    let body = meta_size + (payload.len() + attachment.len()) as u32;
    out[at + 4..at + 8].copy_from_slice(&body.to_be_bytes());
    out[at + 8..at + 12].copy_from_slice(&meta_size.to_be_bytes());
    out.extend_from_slice(payload);
    out.extend_from_slice(attachment);
}

pub fn encode(out: &mut Vec<u8>, meta: &Meta, payload: &[u8], attachment: &[u8]) {
    let at = begin(out);
    if let Some(request) = &meta.request {
        put_request(out, request);
    }
    put_id(out, meta.id, meta.attachment);
    finish(out, at, payload, attachment);
}

/// The frame of a request that others use too.
pub fn encode_request(out: &mut Vec<u8>, request: &Request, id: u64, payload: &[u8]) {
    let at = begin(out);
    put_request(out, request);
    put_id(out, id, 0);
    finish(out, at, payload, b"");
}

/// The frame of a response with the code 0.
pub fn encode_response(out: &mut Vec<u8>, id: u64, payload: &[u8], attachment: &[u8]) {
    let at = begin(out);
    out.extend_from_slice(&[0x12, 2, 0x08, 0]);
    put_id(out, id, attachment.len() as i32);
    finish(out, at, payload, attachment);
}

fn varint(bytes: &[u8], at: &mut usize) -> Option<u64> {
    let mut n = 0;
    for shift in 0..10 {
        let byte = *bytes.get(*at)?;
        *at += 1;
        n |= u64::from(byte & 0x7f) << (7 * shift);
        if byte < 0x80 {
            return Some(n);
        }
    }
    None
}

enum Value<'a> {
    Number(u64),
    Span(&'a [u8]),
    Other,
}

fn field<'a>(bytes: &'a [u8], at: &mut usize) -> Option<(u64, Value<'a>)> {
    let key = varint(bytes, at)?;
    let value = match key & 7 {
        0 => Value::Number(varint(bytes, at)?),
        1 | 5 => {
            *at += if key & 7 == 1 { 8 } else { 4 };
            Value::Other
        }
        2 => {
            let n = varint(bytes, at)? as usize;
            let span = bytes.get(*at..at.checked_add(n)?)?;
            *at += n;
            Value::Span(span)
        }
        _ => return None,
    };
    (*at <= bytes.len() && key >> 3 > 0).then_some((key >> 3, value))
}

fn read_request(bytes: &[u8]) -> Option<Request> {
    let (mut at, mut service, mut method) = (0, None, None);
    while at < bytes.len() {
        match field(bytes, &mut at)? {
            (1, Value::Span(s)) => service = Some(s),
            (2, Value::Span(m)) => method = Some(m),
            _ => {}
        }
    }
    Some(Request { service: service?.to_vec(), method: method?.to_vec() })
}

fn read_meta(bytes: &[u8]) -> Option<Meta> {
    let (mut at, mut meta) = (0, Meta { request: None, id: 0, attachment: 0 });
    while at < bytes.len() {
        match field(bytes, &mut at)? {
            (1, Value::Span(r)) => meta.request = Some(read_request(r)?),
            (4, Value::Number(id)) => meta.id = id,
            (5, Value::Number(n)) => meta.attachment = n as u32 as i32,
            _ => {}
        }
    }
    Some(meta)
}

/// The id of a response's meta. Each code is 0 here, and no response has an attachment.
fn read_id(bytes: &[u8]) -> Option<u64> {
    let (mut at, mut id, mut is_response) = (0, 0, false);
    while at < bytes.len() {
        match field(bytes, &mut at)? {
            (2, Value::Span(r)) => is_response = r == [0x08, 0],
            (4, Value::Number(n)) => id = n,
            _ => {}
        }
    }
    is_response.then_some(id)
}

/// The meta of the frame in front and what comes behind it, if it is whole.
#[inline(always)]
fn first_parts(bytes: &[u8]) -> Option<(&[u8], &[u8])> {
    if bytes.len() < 12 {
        return None;
    }
    assert!(&bytes[..4] == b"PRPC");
    let body = u32::from_be_bytes(bytes[4..8].try_into().unwrap()) as usize;
    let meta_size = u32::from_be_bytes(bytes[8..12].try_into().unwrap()) as usize;
    assert!(body <= 67_108_864 && meta_size <= body);
    if bytes.len() < 12 + body {
        return None;
    }
    Some(bytes[12..12 + body].split_at(meta_size))
}

/// The frame in front, if it is whole, and how many bytes it has.
#[inline(always)]
pub fn first_frame(bytes: &[u8]) -> Option<(Frame<'_>, usize)> {
    let (meta, rest) = first_parts(bytes)?;
    let size = 12 + meta.len() + rest.len();
    let meta = read_meta(meta).unwrap();
    let (payload, attachment) = rest.split_at(rest.len() - meta.attachment as usize);
    Some(((meta, payload, attachment), size))
}

#[derive(Default)]
pub struct Cutter {
    held: Vec<u8>,
    at: usize,
}

impl Cutter {
    pub fn feed(&mut self, piece: &[u8]) {
        if self.at == self.held.len() {
            self.held.clear();
            self.at = 0;
        } else if self.at > 65_536 && self.at > self.held.len() / 2 {
            self.held.drain(..self.at);
            self.at = 0;
        }
        self.held.extend_from_slice(piece);
    }

    pub fn next(&mut self) -> Option<Frame<'_>> {
        let (frame, size) = first_frame(&self.held[self.at..])?;
        self.at += size;
        Some(frame)
    }

    /// The id of the next response, and its payload.
    pub fn next_response(&mut self) -> Option<(u64, &[u8])> {
        let (meta, payload) = first_parts(&self.held[self.at..])?;
        self.at += 12 + meta.len() + payload.len();
        Some((read_id(meta).unwrap(), payload))
    }

    /// How many bytes are left that are no whole frame yet.
    pub fn rest(&self) -> usize {
        self.held.len() - self.at
    }
}
