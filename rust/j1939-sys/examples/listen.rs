//! Reads a log as candump -L writes it on standard input, and prints what its controllers reported.
use j1939_sys::*;
use std::io::BufRead;

/// A listener. Its handle is not copied, and is closed when it goes.
struct Listener(j1939_listener);

impl Listener {
    fn new() -> Option<Listener> {
        let mut listener = Listener(j1939_listener {
            handle: J1939_EMPTY,
        });
        let answer = unsafe { j1939_listener_new(&mut listener.0) };
        (answer == 0).then_some(listener)
    }

    /// Whether a message is heard at this frame.
    fn feed(&mut self, frame: &j1939_frame, message: &mut j1939_message) -> bool {
        unsafe { j1939_listener_feed(&mut self.0, frame, message) == 1 }
    }
}

impl Drop for Listener {
    fn drop(&mut self) {
        unsafe { j1939_listener_close(&mut self.0) };
    }
}

/// Prints the lines of a message.
fn show(message: &j1939_message) {
    let mut text = [0u8; 7264];
    for index in 0.. {
        let size =
            unsafe { j1939_report_line(message, index, text.as_mut_ptr().cast(), text.len()) };
        let Some(line) = usize::try_from(size).ok().and_then(|size| text.get(..size)) else {
            return;
        };
        print!("{}", String::from_utf8_lossy(line));
    }
}

/// The bus and the frame of a line.
fn frame_of(line: &str) -> Option<(&str, j1939_frame)> {
    let mut fields = line.split_whitespace();
    let stamp = fields.next()?.strip_prefix('(')?.strip_suffix(')')?;
    let bus = fields.next()?;
    let (id, data) = fields.next()?.split_once('#')?;
    if id.len() != 8 || data.len() % 2 != 0 || data.len() > 16 {
        return None;
    }
    let mut frame = j1939_frame {
        micros: stamp.replace('.', "").parse().ok()?,
        id: u32::from_str_radix(id, 16).ok()?,
        len: (data.len() / 2) as u8,
        data: [0; 8],
    };
    for (byte, digits) in frame.data.iter_mut().zip(data.as_bytes().chunks(2)) {
        *byte = u8::from_str_radix(std::str::from_utf8(digits).ok()?, 16).ok()?;
    }
    Some((bus, frame))
}

fn main() {
    let mut listener = Listener::new().expect("memory");
    let mut message: j1939_message = unsafe { std::mem::zeroed() };
    let mut first: Option<String> = None;
    for line in std::io::stdin().lock().lines() {
        let line = line.expect("a line");
        let Some((bus, frame)) = frame_of(&line) else {
            continue;
        };
        if bus != first.get_or_insert_with(|| bus.to_owned()) {
            continue;
        }
        if listener.feed(&frame, &mut message) {
            show(&message);
        }
    }
}
