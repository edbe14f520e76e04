//! An input, and its bytes in the stream (STREAM.md) and as a job (the library's job file).

use std::io::{ErrorKind, Read};

pub const MOST_ENTRIES: usize = 70_000;
pub const MOST_BYTES: usize = 66_000;
const JOB_ENTRIES: usize = 1_024;
const JOB_BYTES: usize = 49_152;

#[derive(Clone, PartialEq, Eq, Debug)]
pub struct Input {
    pub load: u16,
    pub entries: Vec<u16>,
    pub image: Vec<u8>,
}

/// What stands next in a stream.
pub enum Next {
    Input(Input),
    End,
    Cut,
}

impl Input {
    pub fn new(load: u16, entries: &[u16], image: &[u8]) -> Input {
        Input { load, entries: entries.to_vec(), image: image.to_vec() }
    }

    /// The image's last address; none where the image is empty or ends past 0xFFFF.
    pub fn last(&self) -> Option<u16> {
        let length = self.image.len().checked_sub(1)?;
        u16::try_from(self.load as usize + length).ok()
    }

    pub fn put(&self, stream: &mut Vec<u8>) {
        stream.extend(self.load.to_le_bytes());
        stream.extend((self.entries.len() as u32).to_le_bytes());
        stream.extend((self.image.len() as u32).to_le_bytes());
        self.put_lists(stream);
    }

    fn put_lists(&self, bytes: &mut Vec<u8>) {
        for entry in &self.entries {
            bytes.extend(entry.to_le_bytes());
        }
        bytes.extend(&self.image);
    }

    /// How many bytes it takes in the stream.
    pub fn size(&self) -> usize {
        10 + 2 * self.entries.len() + self.image.len()
    }

    pub fn next(from: &mut impl Read) -> std::io::Result<Next> {
        let mut head = [0; 10];
        match filled(from, &mut head)? {
            0 => return Ok(Next::End),
            10 => {}
            _ => return Ok(Next::Cut),
        }
        let entries = u32::from_le_bytes([head[2], head[3], head[4], head[5]]) as usize;
        let bytes = u32::from_le_bytes([head[6], head[7], head[8], head[9]]) as usize;
        if entries > MOST_ENTRIES || bytes > MOST_BYTES {
            return Ok(Next::Cut);
        }
        let mut lists = vec![0; 2 * entries + bytes];
        if filled(from, &mut lists)? < lists.len() {
            return Ok(Next::Cut);
        }
        let image = lists.split_off(2 * entries);
        let entries = lists.chunks(2).map(|pair| u16::from_le_bytes([pair[0], pair[1]])).collect();
        Ok(Next::Input(Input { load: u16::from_le_bytes([head[0], head[1]]), entries, image }))
    }

    /// As a job in hex; in words where a job could not hold it.
    pub fn shown(&self) -> String {
        if self.entries.len() > JOB_ENTRIES || self.image.len() > JOB_BYTES {
            let entries: Vec<String> = self.entries.iter().map(|e| format!("{e:04X}")).collect();
            return format!("past a job's limits: load {:04X}\nentries {}\nimage {}", self.load, entries.join(" "), hex(&self.image));
        }
        let image_at = 16 + 2 * self.entries.len() as u32;
        let mut job = self.load.to_le_bytes().to_vec();
        job.extend((self.entries.len() as u16).to_le_bytes());
        job.extend((self.image.len() as u32).to_le_bytes());
        job.extend(16u32.to_le_bytes());
        job.extend(image_at.to_le_bytes());
        self.put_lists(&mut job);
        format!("job {}", hex(&job))
    }
}

fn hex(bytes: &[u8]) -> String {
    let digits: Vec<String> = bytes.iter().map(|b| format!("{b:02X}")).collect();
    digits.join(" ")
}

/// Reads until the buffer is full or nothing is left; how many bytes came.
fn filled(from: &mut impl Read, buffer: &mut [u8]) -> std::io::Result<usize> {
    let mut got = 0;
    while got < buffer.len() {
        match from.read(&mut buffer[got..]) {
            Ok(0) => break,
            Ok(count) => got += count,
            Err(why) if why.kind() == ErrorKind::Interrupted => {}
            Err(why) => return Err(why),
        }
    }
    Ok(got)
}
