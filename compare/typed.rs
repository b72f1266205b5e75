//! The structs of include/boot_assist.h, and its typed calls, which compare/typed.c makes
//! functions that can be linked.
//!
//! Nothing checks the declarations of the calls against the header. What typed.c says of
//! the header's structs and sizes is compared with these.

use crate::boot::{FLASH_MAX, HEAD, SHADOW};
use crate::c_numbers::ROWS;
use crate::forms::{Lists, Room, ANSWER, BEHIND, CHOICE, FRONT, ITEM};
use crate::generators::PUBLIC;
use crate::harness::{BASE, SRAM};
use std::mem::{offset_of, size_of};

/// A struct with the members of a flat form: the bytes, eight to a member, and the numbers.
pub trait Struct<const BYTES: usize, const NUMBERS: usize> {
    fn of(form: &Lists<BYTES, NUMBERS>) -> Self;
    fn form(&self) -> Lists<BYTES, NUMBERS>;
}

macro_rules! of_the_header {
    ($name:ident, $bytes:literal, $numbers:literal: $($byte:ident)*; $($number:ident)*) => {
        #[repr(C)]
        pub struct $name {
            $($byte: [u8; 8],)*
            $($number: u32,)*
        }

        impl Struct<$bytes, $numbers> for $name {
            fn of(form: &Lists<$bytes, $numbers>) -> Self {
                let mut eights = form.bytes.chunks_exact(8);
                let [$($number),*] = form.numbers;
                $name {
                    $($byte: eights.next().unwrap().try_into().unwrap(),)*
                    $($number,)*
                }
            }

            fn form(&self) -> Lists<$bytes, $numbers> {
                Lists {
                    bytes: *[$(self.$byte),*].as_flattened().first_chunk().unwrap(),
                    numbers: [$(self.$number),*],
                }
            }
        }
    };
}

of_the_header!(Session, 16, 9:
    selected held; stage port count start vle next owed refusal entered);
of_the_header!(Answer, 8, 5: echo; number echo_identifier echo_length jump vle);
of_the_header!(Choice, 8, 8: password; mode place looked jump watchdog bus16 flash nexus);
of_the_header!(Sender, 8, 7: password; going port start vle image_length place out);
of_the_header!(Item, 8, 3: bytes; port identifier count);

/// Five of these have the numbers of the flat form one after the other.
#[repr(C)]
pub struct Row {
    logical: u32,
    physical: u32,
    size: u32,
    cache_inhibited: u32,
    guarded: u32,
    big_endian: u32,
    global_pid: u32,
    vle: u32,
}

/// As in the flat form.
#[repr(C)]
pub struct Record {
    kind: usize,
    next: usize,
    body_start: usize,
    body_count: usize,
}

/// A struct that is lent, with what a room has in front of the form's bytes and behind its
/// numbers.
#[repr(C)]
pub struct Around<T> {
    front: [u8; FRONT],
    pub lent: T,
    behind: [u32; BEHIND],
}

impl<T> Around<T> {
    pub fn of<const B: usize, const N: usize, const BYTES: usize, const NUMBERS: usize>(
        room: &Room<BYTES, NUMBERS>,
    ) -> Self
    where
        T: Struct<B, N>,
    {
        Around {
            front: *room.bytes.first_chunk().unwrap(),
            lent: T::of(&room.form()),
            behind: *room.numbers.last_chunk().unwrap(),
        }
    }

    /// Writes all back into the room.
    pub fn back<const B: usize, const N: usize, const BYTES: usize, const NUMBERS: usize>(
        self,
        room: &mut Room<BYTES, NUMBERS>,
    ) where
        T: Struct<B, N>,
    {
        room.put(&self.lent.form());
        *room.bytes.first_chunk_mut().unwrap() = self.front;
        *room.numbers.last_chunk_mut().unwrap() = self.behind;
    }
}

extern "C" {
    pub fn typed_choose(
        bootcfg: u32,
        flash: *const u8,
        flash_len: usize,
        shadow: *const u8,
        external: *const u8,
        choice: *mut Choice,
    ) -> u8;

    pub fn typed_choice_rows(mode: u32, rows: *mut Row) -> u8;

    pub fn typed_fresh(mode: u32, password: *const u8, session: *mut Session) -> u8;

    pub fn typed_session_rows(session: *const Session, rows: *mut Row) -> u8;

    pub fn typed_frame(
        session: *mut Session,
        sram: *mut u8,
        sram_len: usize,
        identifier: u32,
        data: *const u8,
        data_len: usize,
        answer: *mut Answer,
    ) -> u8;

    pub fn typed_byte(
        session: *mut Session,
        sram: *mut u8,
        sram_len: usize,
        byte: u8,
        faulty: u32,
        answer: *mut Answer,
    ) -> u8;

    pub fn typed_list(
        session: *mut Session,
        sram: *mut u8,
        sram_len: usize,
        items: usize,
        kinds: *const u8,
        identifiers: *const u32,
        counts: *const u32,
        bytes: *const u8,
        bytes_len: usize,
        echoes: *mut u8,
        answers: *mut u32,
    ) -> u8;

    pub fn typed_begin(
        port: u32,
        start: u32,
        vle: u32,
        password: *const u8,
        image: *const u8,
        image_len: usize,
        sender: *mut Sender,
    ) -> u8;

    pub fn typed_ask(
        sender: *mut Sender,
        image: *const u8,
        image_len: usize,
        item: *mut Item,
    ) -> u8;

    pub fn typed_tell(
        sender: *mut Sender,
        image: *const u8,
        image_len: usize,
        port: u32,
        identifier: u32,
        bytes: *const u8,
        bytes_len: usize,
        verdict: *mut u8,
    ) -> u8;

    pub fn typed_read(capture: *const u8, capture_len: usize, at: usize, record: *mut Record)
        -> u8;

    // Of each struct its size and where its members are, and the sizes that have a name.
    static typed_session_places: [usize; 12];
    static typed_answer_places: [usize; 7];
    static typed_choice_places: [usize; 10];
    static typed_sender_places: [usize; 9];
    static typed_item_places: [usize; 5];
    static typed_row_places: [usize; 9];
    static typed_record_places: [usize; 5];
    static typed_sizes: [usize; 9];
    static typed_public_password: [u8; 8];
}

macro_rules! places {
    ($name:ident: $($member:ident)*) => {
        [size_of::<$name>(), $(offset_of!($name, $member)),*]
    };
}

/// Compares what typed.c says of the header with these structs and the sizes in use here.
pub fn same_header() -> Result<(), String> {
    let sizes = [
        BASE as usize,
        SRAM,
        FLASH_MAX,
        SHADOW,
        HEAD,
        CHOICE.bytes,
        ITEM.bytes,
        ROWS,
        ANSWER.numbers,
    ];
    #[rustfmt::skip]
    let ours: [(&str, &[usize]); 8] = [
        ("session", &places!(Session:
            selected held stage port count start vle next owed refusal entered)),
        ("answer", &places!(Answer: echo number echo_identifier echo_length jump vle)),
        ("choice", &places!(Choice:
            password mode place looked jump watchdog bus16 flash nexus)),
        ("sender", &places!(Sender: password going port start vle image_length place out)),
        ("item", &places!(Item: bytes port identifier count)),
        ("row", &places!(Row:
            logical physical size cache_inhibited guarded big_endian global_pid vle)),
        ("record", &places!(Record: kind next body_start body_count)),
        ("sizes", &sizes),
    ];
    // SAFETY: typed.c defines these with so many numbers and never writes them.
    let (theirs, password) = unsafe {
        let theirs: [&[usize]; 8] = [
            &typed_session_places,
            &typed_answer_places,
            &typed_choice_places,
            &typed_sender_places,
            &typed_item_places,
            &typed_row_places,
            &typed_record_places,
            &typed_sizes,
        ];
        (theirs, typed_public_password)
    };
    for ((name, ours), theirs) in ours.into_iter().zip(theirs) {
        if ours != theirs {
            return Err(format!(
                "include/boot_assist.h, {name}: {theirs:?}, and the comparison {ours:?}\n"
            ));
        }
    }
    if password != PUBLIC {
        return Err("include/boot_assist.h has another public password\n".into());
    }
    Ok(())
}
