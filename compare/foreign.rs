//! The library under test, through its C interface: its flat calls, and the header's typed
//! ones.
//!
//! Nothing checks these declarations against the library: they repeat
//! include/boot_assist.h.

use crate::boot::{HEAD, SHADOW};
use crate::c_numbers::TABLE;
use crate::forms::{
    AnswerRoom, ChoiceRoom, ItemRoom, Length, SenderRoom, SessionRoom, ANSWER, CHOICE, ITEM,
    SENDER, SESSION,
};
use crate::random::Random;
use crate::typed::{self, Around};
use std::array;
use std::fmt;
use std::ptr;
use std::slice;

/// The verdict among bytes that are not lent, and its place.
pub type Verdict = [u8; 8];
pub const VERDICT: usize = 4;

/// How many numbers a record has.
pub const RECORD: usize = 4;

extern "C" {
    fn boot_assist_flat_choose(
        bootcfg: u32,
        flash: *const u8,
        flash_len: usize,
        shadow: *const u8,
        shadow_len: usize,
        head: *const u8,
        head_len: usize,
        fields: *mut u32,
        fields_len: usize,
        password: *mut u8,
        password_len: usize,
    ) -> u8;

    fn boot_assist_flat_choice_rows(mode: u32, rows: *mut u32, rows_len: usize) -> u8;

    fn boot_assist_flat_fresh(
        mode: u32,
        password: *const u8,
        password_len: usize,
        session_bytes: *mut u8,
        session_bytes_len: usize,
        session: *mut u32,
        session_len: usize,
    ) -> u8;

    fn boot_assist_flat_session_rows(
        session_bytes: *const u8,
        session_bytes_len: usize,
        session: *const u32,
        session_len: usize,
        rows: *mut u32,
        rows_len: usize,
    ) -> u8;

    fn boot_assist_flat_frame(
        session_bytes: *mut u8,
        session_bytes_len: usize,
        session: *mut u32,
        session_len: usize,
        sram: *mut u8,
        sram_len: usize,
        identifier: u32,
        data: *const u8,
        data_len: usize,
        echo: *mut u8,
        echo_len: usize,
        answer: *mut u32,
        answer_len: usize,
    ) -> u8;

    fn boot_assist_flat_byte(
        session_bytes: *mut u8,
        session_bytes_len: usize,
        session: *mut u32,
        session_len: usize,
        sram: *mut u8,
        sram_len: usize,
        byte: u8,
        faulty: u32,
        echo: *mut u8,
        echo_len: usize,
        answer: *mut u32,
        answer_len: usize,
    ) -> u8;

    fn boot_assist_flat_list(
        session_bytes: *mut u8,
        session_bytes_len: usize,
        session: *mut u32,
        session_len: usize,
        sram: *mut u8,
        sram_len: usize,
        kinds: *const u8,
        kinds_len: usize,
        identifiers: *const u32,
        identifiers_len: usize,
        counts: *const u32,
        counts_len: usize,
        bytes: *const u8,
        bytes_len: usize,
        echoes: *mut u8,
        echoes_len: usize,
        answers: *mut u32,
        answers_len: usize,
    ) -> u8;

    fn boot_assist_flat_begin(
        port: u32,
        start: u32,
        vle: u32,
        password: *const u8,
        password_len: usize,
        image: *const u8,
        image_len: usize,
        sender_bytes: *mut u8,
        sender_bytes_len: usize,
        sender: *mut u32,
        sender_len: usize,
    ) -> u8;

    fn boot_assist_flat_ask(
        sender_bytes: *mut u8,
        sender_bytes_len: usize,
        sender: *mut u32,
        sender_len: usize,
        image: *const u8,
        image_len: usize,
        item_bytes: *mut u8,
        item_bytes_len: usize,
        item: *mut u32,
        item_len: usize,
    ) -> u8;

    fn boot_assist_flat_tell(
        sender_bytes: *mut u8,
        sender_bytes_len: usize,
        sender: *mut u32,
        sender_len: usize,
        image: *const u8,
        image_len: usize,
        port: u32,
        identifier: u32,
        bytes: *const u8,
        bytes_len: usize,
        verdict: *mut u8,
    ) -> u8;

    fn boot_assist_flat_read(
        capture: *const u8,
        capture_len: usize,
        at: usize,
        fields: *mut usize,
        fields_len: usize,
    ) -> u8;

    /// Of the C library, for lists of lengths that no memory holds.
    fn mmap(at: *mut u8, length: usize, access: i32, kind: i32, file: i32, from: i64) -> *mut u8;
}

/// The calls in their order in the header.
#[derive(Clone, Copy)]
enum Call {
    Choose,
    ChoiceRows,
    Fresh,
    SessionRows,
    Frame,
    Byte,
    List,
    Begin,
    Ask,
    Tell,
    Read,
}

/// Their names, flat and typed.
#[rustfmt::skip]
const FLAT: [&str; 11] = [
    "choice", "choice_rows", "session", "session_rows", "frame", "byte", "list", "begin", "ask",
    "tell", "read",
];
#[rustfmt::skip]
const TYPED: [&str; 11] = [
    "choose", "choice_rows", "fresh", "session_rows", "frame", "byte", "list", "begin", "ask",
    "tell", "read",
];

/// How a call is made.
#[derive(Clone, Copy)]
pub struct Way {
    call: Call,
    typed: bool,
    /// Lists of no elements are NULL.
    null: bool,
    /// Where the bits of a typed call's flag are.
    shift: u32,
}

impl fmt::Display for Way {
    fn fmt(&self, f: &mut fmt::Formatter) -> fmt::Result {
        let call = self.call as usize;
        match self.typed {
            true => write!(f, "boot_assist_{}", TYPED[call])?,
            false => write!(f, "boot_assist_flat_{}", FLAT[call])?,
        }
        if self.typed && matches!(self.call, Call::Byte | Call::Begin) {
            write!(f, ", flag << {}", self.shift)?;
        }
        if self.null {
            write!(f, ", NULL where a length is 0")?;
        }
        Ok(())
    }
}

/// How often each call was made flat, typed, and with NULL for a list.
#[derive(Clone, Copy, Default)]
pub struct Calls([[u64; 3]; 11]);

impl Calls {
    pub fn add(&mut self, other: &Calls) {
        let counts = self.0.as_flattened_mut();
        for (count, other) in counts.iter_mut().zip(other.0.as_flattened()) {
            *count += other;
        }
    }

    /// How many were made flat, and how many typed.
    pub fn made(&self) -> [u64; 2] {
        [0, 1].map(|way| self.0.iter().map(|counts| counts[way]).sum())
    }

    /// Those that were never made so.
    pub fn missing(&self) -> Vec<String> {
        let mut missing = Vec::new();
        for (way, calls) in self.lines() {
            let never = calls.into_iter().filter(|&(_, count)| count == 0);
            missing.extend(never.map(|(name, _)| format!("{way} {name}")));
        }
        missing
    }

    fn lines(&self) -> [(&'static str, [(&'static str, u64); 11]); 3] {
        let ways = [("flat", FLAT), ("typed", TYPED), ("NULL", FLAT)];
        array::from_fn(|way| {
            let (name, calls) = ways[way];
            let counts = array::from_fn(|call| (calls[call], self.0[call][way]));
            (name, counts)
        })
    }
}

/// A line for each way: each call with how often it was made so.
impl fmt::Display for Calls {
    fn fmt(&self, f: &mut fmt::Formatter) -> fmt::Result {
        for (way, calls) in self.lines() {
            let calls = calls.map(|(name, count)| format!("{name}: {count}"));
            writeln!(f, "{way:<12} {}", calls.join(", "))?;
        }
        Ok(())
    }
}

/// Makes each call flat or typed, as a seed says.
///
/// What is around the lists that are lent must be left alone. Of what is only read some is
/// lent to be written, so that a write to it would be seen.
pub struct Library {
    random: Random,
    /// How the last call was made.
    pub way: Way,
    /// Whether it was handed NULL.
    null: bool,
    pub calls: Calls,
}

impl Library {
    pub fn new(random: Random) -> Self {
        Library {
            random,
            way: Way {
                call: Call::Choose,
                typed: false,
                null: false,
                shift: 0,
            },
            null: false,
            calls: Calls::default(),
        }
    }

    /// Chooses how this call is made. Answers whether it is a typed one, which it can be where
    /// the lengths that a typed one is not handed are right.
    fn typed(&mut self, call: Call, right: bool) -> bool {
        let bits = self.random.number();
        let typed = right && bits & 1 != 0;
        self.way = Way {
            call,
            typed,
            null: bits & 2 != 0,
            shift: 8 * (bits >> 2 & 3) as u32,
        };
        self.null = false;
        self.calls.0[call as usize][usize::from(typed)] += 1;
        typed
    }

    fn at<T>(&mut self, list: &[T]) -> *const T {
        match self.is_null(list.len()) {
            true => ptr::null(),
            false => list.as_ptr(),
        }
    }

    fn at_mut<T>(&mut self, list: &mut [T]) -> *mut T {
        match self.is_null(list.len()) {
            true => ptr::null_mut(),
            false => list.as_mut_ptr(),
        }
    }

    /// Whether a list of this length is handed in as NULL. Counts the first of a call.
    fn is_null(&mut self, length: usize) -> bool {
        let null = self.way.null && length == 0;
        if null && !self.null {
            self.null = true;
            self.calls.0[self.way.call as usize][2] += 1;
        }
        null
    }

    pub fn choose(
        &mut self,
        bootcfg: u32,
        flash: &[u8],
        shadow: &[u8],
        head: &[u8],
        choice: &mut ChoiceRoom,
        length: Length,
    ) -> u8 {
        let right = shadow.len() == SHADOW && head.len() == HEAD && length == CHOICE;
        if self.typed(Call::Choose, right) {
            let mut around = Around::<typed::Choice>::of(choice);
            // SAFETY: slices and structs are valid for their length, and those that are
            // written overlap nothing.
            let number = unsafe {
                typed::typed_choose(
                    bootcfg,
                    self.at(flash),
                    flash.len(),
                    shadow.as_ptr(),
                    head.as_ptr(),
                    &mut around.lent,
                )
            };
            around.back(choice);
            return number;
        }
        let (password, fields) = choice.lent_mut(length);
        // SAFETY: as above.
        unsafe {
            boot_assist_flat_choose(
                bootcfg,
                self.at(flash),
                flash.len(),
                self.at(shadow),
                shadow.len(),
                self.at(head),
                head.len(),
                self.at_mut(fields),
                fields.len(),
                self.at_mut(password),
                password.len(),
            )
        }
    }

    pub fn choice_rows(&mut self, mode: u32, rows: &mut [u32]) -> u8 {
        let typed = self.typed(Call::ChoiceRows, rows.len() == TABLE);
        let at = self.at_mut(rows);
        // SAFETY: as above; the table's numbers are those of five rows.
        unsafe {
            match typed {
                true => typed::typed_choice_rows(mode, at.cast()),
                false => boot_assist_flat_choice_rows(mode, at, rows.len()),
            }
        }
    }

    pub fn fresh(
        &mut self,
        mode: u32,
        password: &[u8],
        session: &mut SessionRoom,
        length: Length,
    ) -> u8 {
        let right = password.len() == CHOICE.bytes && length == SESSION;
        if self.typed(Call::Fresh, right) {
            let mut around = Around::<typed::Session>::of(session);
            // SAFETY: as above.
            let number = unsafe { typed::typed_fresh(mode, password.as_ptr(), &mut around.lent) };
            around.back(session);
            return number;
        }
        let (bytes, numbers) = session.lent_mut(length);
        // SAFETY: as above.
        unsafe {
            boot_assist_flat_fresh(
                mode,
                self.at(password),
                password.len(),
                self.at_mut(bytes),
                bytes.len(),
                self.at_mut(numbers),
                numbers.len(),
            )
        }
    }

    /// The session is only read.
    pub fn session_rows(
        &mut self,
        session: &mut SessionRoom,
        length: Length,
        rows: &mut [u32],
    ) -> u8 {
        if self.typed(Call::SessionRows, length == SESSION && rows.len() == TABLE) {
            let mut around = Around::<typed::Session>::of(session);
            let lent = ptr::from_mut(&mut around.lent);
            // SAFETY: as above; the table's numbers are those of five rows.
            let number = unsafe { typed::typed_session_rows(lent, rows.as_mut_ptr().cast()) };
            around.back(session);
            return number;
        }
        let (bytes, numbers) = session.lent_mut(length);
        // SAFETY: as above.
        unsafe {
            boot_assist_flat_session_rows(
                self.at_mut(bytes),
                bytes.len(),
                self.at_mut(numbers),
                numbers.len(),
                self.at_mut(rows),
                rows.len(),
            )
        }
    }

    pub fn frame(
        &mut self,
        (session, session_len): (&mut SessionRoom, Length),
        sram: &mut [u8],
        identifier: u32,
        data: &[u8],
        (answer, answer_len): (&mut AnswerRoom, Length),
    ) -> u8 {
        if self.typed(Call::Frame, session_len == SESSION && answer_len == ANSWER) {
            let mut session_around = Around::<typed::Session>::of(session);
            let mut answer_around = Around::<typed::Answer>::of(answer);
            // SAFETY: as above.
            let number = unsafe {
                typed::typed_frame(
                    &mut session_around.lent,
                    self.at_mut(sram),
                    sram.len(),
                    identifier,
                    self.at(data),
                    data.len(),
                    &mut answer_around.lent,
                )
            };
            session_around.back(session);
            answer_around.back(answer);
            return number;
        }
        let (bytes, numbers) = session.lent_mut(session_len);
        let (echo, answer) = answer.lent_mut(answer_len);
        // SAFETY: as above.
        unsafe {
            boot_assist_flat_frame(
                self.at_mut(bytes),
                bytes.len(),
                self.at_mut(numbers),
                numbers.len(),
                self.at_mut(sram),
                sram.len(),
                identifier,
                self.at(data),
                data.len(),
                self.at_mut(echo),
                echo.len(),
                self.at_mut(answer),
                answer.len(),
            )
        }
    }

    /// A number that is not 0 marks a faulty byte; the call gets it with its bits in any of
    /// four bytes.
    pub fn byte(
        &mut self,
        (session, session_len): (&mut SessionRoom, Length),
        sram: &mut [u8],
        byte: u8,
        mark: u8,
        (answer, answer_len): (&mut AnswerRoom, Length),
    ) -> u8 {
        if self.typed(Call::Byte, session_len == SESSION && answer_len == ANSWER) {
            let mut session_around = Around::<typed::Session>::of(session);
            let mut answer_around = Around::<typed::Answer>::of(answer);
            // SAFETY: as above.
            let number = unsafe {
                typed::typed_byte(
                    &mut session_around.lent,
                    self.at_mut(sram),
                    sram.len(),
                    byte,
                    u32::from(mark) << self.way.shift,
                    &mut answer_around.lent,
                )
            };
            session_around.back(session);
            answer_around.back(answer);
            return number;
        }
        let (bytes, numbers) = session.lent_mut(session_len);
        let (echo, answer) = answer.lent_mut(answer_len);
        // SAFETY: as above.
        unsafe {
            boot_assist_flat_byte(
                self.at_mut(bytes),
                bytes.len(),
                self.at_mut(numbers),
                numbers.len(),
                self.at_mut(sram),
                sram.len(),
                byte,
                u32::from(mark) << self.way.shift,
                self.at_mut(echo),
                echo.len(),
                self.at_mut(answer),
                answer.len(),
            )
        }
    }

    pub fn list(
        &mut self,
        (session, session_len): (&mut SessionRoom, Length),
        sram: &mut [u8],
        kinds: &[u8],
        identifiers: &[u32],
        counts: &[u32],
        bytes: &[u8],
        echoes: &mut [u8],
        answers: &mut [u32],
    ) -> u8 {
        let items = kinds.len();
        let right = session_len == SESSION
            && [identifiers.len(), counts.len()] == [items; 2]
            && echoes.len() == ANSWER.bytes * items
            && answers.len() == ANSWER.numbers * items;
        if self.typed(Call::List, right) {
            let mut around = Around::<typed::Session>::of(session);
            // SAFETY: as above.
            let number = unsafe {
                typed::typed_list(
                    &mut around.lent,
                    self.at_mut(sram),
                    sram.len(),
                    items,
                    self.at(kinds),
                    self.at(identifiers),
                    self.at(counts),
                    self.at(bytes),
                    bytes.len(),
                    self.at_mut(echoes),
                    self.at_mut(answers),
                )
            };
            around.back(session);
            return number;
        }
        let (session_bytes, numbers) = session.lent_mut(session_len);
        // SAFETY: as above.
        unsafe {
            boot_assist_flat_list(
                self.at_mut(session_bytes),
                session_bytes.len(),
                self.at_mut(numbers),
                numbers.len(),
                self.at_mut(sram),
                sram.len(),
                self.at(kinds),
                kinds.len(),
                self.at(identifiers),
                identifiers.len(),
                self.at(counts),
                counts.len(),
                self.at(bytes),
                bytes.len(),
                self.at_mut(echoes),
                echoes.len(),
                self.at_mut(answers),
                answers.len(),
            )
        }
    }

    /// The password and the image are only read. The call gets the bits of VLE in any of four
    /// bytes.
    pub fn begin(
        &mut self,
        port: u32,
        start: u32,
        vle: u8,
        password: &mut [u8],
        image: &mut [u8],
        (sender, sender_len): (&mut SenderRoom, Length),
    ) -> u8 {
        let right = password.len() == CHOICE.bytes && sender_len == SENDER;
        if self.typed(Call::Begin, right) {
            let mut around = Around::<typed::Sender>::of(sender);
            // SAFETY: as above.
            let number = unsafe {
                typed::typed_begin(
                    port,
                    start,
                    u32::from(vle) << self.way.shift,
                    password.as_mut_ptr(),
                    self.at_mut(image),
                    image.len(),
                    &mut around.lent,
                )
            };
            around.back(sender);
            return number;
        }
        let (bytes, numbers) = sender.lent_mut(sender_len);
        // SAFETY: as above.
        unsafe {
            boot_assist_flat_begin(
                port,
                start,
                u32::from(vle) << self.way.shift,
                self.at_mut(password),
                password.len(),
                self.at_mut(image),
                image.len(),
                self.at_mut(bytes),
                bytes.len(),
                self.at_mut(numbers),
                numbers.len(),
            )
        }
    }

    /// The image is only read.
    pub fn ask(
        &mut self,
        (sender, sender_len): (&mut SenderRoom, Length),
        image: &mut [u8],
        (item, item_len): (&mut ItemRoom, Length),
    ) -> u8 {
        if self.typed(Call::Ask, sender_len == SENDER && item_len == ITEM) {
            let mut sender_around = Around::<typed::Sender>::of(sender);
            let mut item_around = Around::<typed::Item>::of(item);
            // SAFETY: as above.
            let number = unsafe {
                typed::typed_ask(
                    &mut sender_around.lent,
                    self.at_mut(image),
                    image.len(),
                    &mut item_around.lent,
                )
            };
            sender_around.back(sender);
            item_around.back(item);
            return number;
        }
        let (bytes, numbers) = sender.lent_mut(sender_len);
        let (item_bytes, item) = item.lent_mut(item_len);
        // SAFETY: as above.
        unsafe {
            boot_assist_flat_ask(
                self.at_mut(bytes),
                bytes.len(),
                self.at_mut(numbers),
                numbers.len(),
                self.at_mut(image),
                image.len(),
                self.at_mut(item_bytes),
                item_bytes.len(),
                self.at_mut(item),
                item.len(),
            )
        }
    }

    /// The image and the bytes are only read.
    pub fn tell(
        &mut self,
        (sender, sender_len): (&mut SenderRoom, Length),
        image: &mut [u8],
        port: u32,
        identifier: u32,
        bytes: &mut [u8],
        verdict: &mut Verdict,
    ) -> u8 {
        if self.typed(Call::Tell, sender_len == SENDER) {
            let mut around = Around::<typed::Sender>::of(sender);
            // SAFETY: as above.
            let number = unsafe {
                typed::typed_tell(
                    &mut around.lent,
                    self.at_mut(image),
                    image.len(),
                    port,
                    identifier,
                    self.at_mut(bytes),
                    bytes.len(),
                    &mut verdict[VERDICT],
                )
            };
            around.back(sender);
            return number;
        }
        let (password, numbers) = sender.lent_mut(sender_len);
        // SAFETY: as above.
        unsafe {
            boot_assist_flat_tell(
                self.at_mut(password),
                password.len(),
                self.at_mut(numbers),
                numbers.len(),
                self.at_mut(image),
                image.len(),
                port,
                identifier,
                self.at_mut(bytes),
                bytes.len(),
                &mut verdict[VERDICT],
            )
        }
    }

    pub fn read(&mut self, capture: &[u8], at: usize, fields: &mut [usize]) -> u8 {
        let typed = self.typed(Call::Read, fields.len() == RECORD);
        let record = self.at_mut(fields);
        // SAFETY: as above; the fields are those of a record.
        unsafe {
            match typed {
                true => typed::typed_read(self.at(capture), capture.len(), at, record.cast()),
                false => {
                    boot_assist_flat_read(self.at(capture), capture.len(), at, record, fields.len())
                }
            }
        }
    }
}

/// So many bytes 00, which take no memory as long as they are not read. A write to them
/// ends the program.
pub fn zeros(length: usize) -> &'static mut [u8] {
    const PROT_READ: i32 = 1;
    // MAP_PRIVATE, MAP_ANONYMOUS and MAP_NORESERVE.
    const KIND: i32 = 0x2 | 0x20 | 0x4000;
    // SAFETY: the mapping is a new one that nothing else names, and it stays.
    unsafe {
        let start = mmap(ptr::null_mut(), length, PROT_READ, KIND, -1, 0);
        assert!(start.addr() != usize::MAX, "no room for {length} addresses");
        slice::from_raw_parts_mut(start, length)
    }
}
