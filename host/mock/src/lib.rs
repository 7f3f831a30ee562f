//! A library with the exported functions of the port, over the oracle's
//! model. It stands in for the port where the boundary itself is tested:
//! with no fault the comparison must find nothing, and with each of the
//! faults that MOCK_FAULT names, ones that only a boundary can have, it
//! must find that.
use oracle::call::{Buffer, Call};
use oracle::event::{self, Given, WordWriter, Writer};
use oracle::many::{self, Looker};
use oracle::message::{self, Reader};
use oracle::model::model;
use oracle::netmask::{self, Masked};
use oracle::part::{self, Ask, Lister, Take};
use oracle::port::{self, Bytes, Model, WordPort, make};
use oracle::recording::{self, Rebuilder};
use oracle::words::{BASE_WORDS, ROW_COUNTS_AT};
use std::slice::{from_raw_parts, from_raw_parts_mut};

#[repr(C)]
pub struct Reply {
    number: u32,
    present: u32,
    value: u32,
    second: u32,
}

impl From<oracle::call::Reply> for Reply {
    fn from(reply: oracle::call::Reply) -> Self {
        Self {
            number: reply.number,
            present: reply.present,
            value: reply.value,
            second: reply.second,
        }
    }
}

/// What a call is lent; what it isn't lent is empty.
struct Lent<'a, E> {
    state: &'a mut [E],
    request: &'a mut [E],
    buffer: &'a mut [E],
}

/// Bytes or words.
trait Element: Copy + Default {
    const ALIGNED: bool;
    fn model(
        call: Call,
        state: &mut [Self],
        request: &[Self],
        buffer: &mut [Self],
    ) -> oracle::call::Reply;
    fn masked(
        call: Call,
        state: &mut [Self],
        request: &[Self],
        buffer: &mut [Self],
    ) -> oracle::call::Reply;
    fn read(message: &[u8], request: &mut [Self], up: u32) -> oracle::call::Reply;
    fn write(event: &[Self], message: &mut [u8], given: Given) -> oracle::call::Reply;
    fn part(
        ask: Ask,
        state: &[Self],
        listing: &mut [Self],
        cursor: &mut [Self],
    ) -> oracle::call::Reply;
    fn rebuild(recording: &[Self], rows: &mut [Self]) -> oracle::call::Reply;
    fn same(first: &[Self], second: &[Self]) -> oracle::call::Reply;
    fn many(state: &[Self], destinations: &[Self], answers: &mut [Self]) -> oracle::call::Reply;
}

impl Element for u8 {
    const ALIGNED: bool = false;
    fn model(
        call: Call,
        state: &mut [u8],
        request: &[u8],
        buffer: &mut [u8],
    ) -> oracle::call::Reply {
        make(&mut Bytes(Model), &call, state, request, buffer)
    }
    fn masked(
        call: Call,
        state: &mut [u8],
        request: &[u8],
        buffer: &mut [u8],
    ) -> oracle::call::Reply {
        make(&mut Bytes(Masked), &call, state, request, buffer)
    }
    fn read(message: &[u8], request: &mut [u8], up: u32) -> oracle::call::Reply {
        message::Model.read(message, request, up)
    }
    fn write(event: &[u8], message: &mut [u8], given: Given) -> oracle::call::Reply {
        Bytes(event::Model).write(event, message, given)
    }
    fn part(ask: Ask, state: &[u8], listing: &mut [u8], cursor: &mut [u8]) -> oracle::call::Reply {
        Bytes(part::Model).part(ask, state, listing, cursor)
    }
    fn rebuild(recording: &[u8], rows: &mut [u8]) -> oracle::call::Reply {
        Bytes(recording::Model).rebuild(recording, rows)
    }
    fn same(first: &[u8], second: &[u8]) -> oracle::call::Reply {
        Bytes(recording::Model).same(first, second)
    }
    fn many(state: &[u8], destinations: &[u8], answers: &mut [u8]) -> oracle::call::Reply {
        Bytes(many::Model).many(state, destinations, answers)
    }
}

impl Element for u32 {
    const ALIGNED: bool = true;
    fn model(
        mut call: Call,
        state: &mut [u32],
        request: &[u32],
        buffer: &mut [u32],
    ) -> oracle::call::Reply {
        if let Some(words) = call.lent_mut() {
            *words = request.to_vec();
        }
        model(&call, state, buffer)
    }
    fn masked(
        mut call: Call,
        state: &mut [u32],
        request: &[u32],
        buffer: &mut [u32],
    ) -> oracle::call::Reply {
        if let Some(words) = call.lent_mut() {
            *words = request.to_vec();
        }
        Masked.call(&call, state, buffer)
    }
    fn read(message: &[u8], request: &mut [u32], up: u32) -> oracle::call::Reply {
        let mut bytes = port::bytes(request);
        let reply = message::Model.read(message, &mut bytes, up);
        request.copy_from_slice(&port::words(&bytes));
        reply
    }
    fn write(event: &[u32], message: &mut [u8], given: Given) -> oracle::call::Reply {
        event::Model.write(event, message, given)
    }
    fn part(
        ask: Ask,
        state: &[u32],
        listing: &mut [u32],
        cursor: &mut [u32],
    ) -> oracle::call::Reply {
        part::Model.part(ask, state, listing, cursor)
    }
    fn rebuild(recording: &[u32], rows: &mut [u32]) -> oracle::call::Reply {
        recording::Model.rebuild(recording, rows)
    }
    fn same(first: &[u32], second: &[u32]) -> oracle::call::Reply {
        recording::Model.same(first, second)
    }
    fn many(state: &[u32], destinations: &[u32], answers: &mut [u32]) -> oracle::call::Reply {
        many::Model.many(state, destinations, answers)
    }
}

fn fault() -> String {
    std::env::var("MOCK_FAULT").unwrap_or_default()
}

fn run<E: Element>(call: Call, lent: Lent<E>) -> Reply {
    let fault = fault();
    let changing = call.buffer() == Buffer::Events;
    let misaligned = !lent.state.as_ptr().addr().is_multiple_of(4);
    let call = match (fault.as_str(), call) {
        ("swapped numbers", Call::Lookup4Flow { ip, tos, oif }) => Call::Lookup4Flow {
            ip,
            tos: oif,
            oif: tos,
        },
        ("half a clock", Call::Expire { now, allowance }) => Call::Expire {
            now: u64::from(now as u32),
            allowance,
        },
        ("half an allowance", Call::Expire { now, allowance }) => Call::Expire {
            now,
            allowance: u64::from(allowance as u32),
        },
        ("clock and allowance swapped", Call::Expire { now, allowance }) => Call::Expire {
            now: allowance,
            allowance: now,
        },
        ("another function", Call::Source { ip }) => Call::Local4 { ip },
        (_, call) => call,
    };
    let before = lent.state.to_vec();
    let reply = if changing {
        E::model(call, lent.state, lent.request, lent.buffer)
    } else {
        E::model(call, &mut lent.state.to_vec(), lent.request, lent.buffer)
    };
    let mut reply = Reply::from(reply);
    match fault.as_str() {
        "swapped reply" => (reply.value, reply.second) = (reply.second, reply.value),
        // SAFETY: none, this is the fault; the comparison lends guarded slices
        "past the end" if changing => unsafe {
            lent.buffer.as_mut_ptr_range().end.write(E::default());
        },
        "before the start" if changing => unsafe {
            lent.state.as_mut_ptr().sub(1).write(E::default());
        },
        "the count not written back" if changing && !E::ALIGNED => {
            let counts = 4 * BASE_WORDS..4 * ROW_COUNTS_AT;
            if let Some(count) = before.get(counts.clone()) {
                lent.state[counts].copy_from_slice(count);
            }
        }
        "the row counts not written back" if changing && !E::ALIGNED => {
            let counts = before.len().min(4 * ROW_COUNTS_AT);
            lent.state[counts..].copy_from_slice(&before[counts..]);
        }
        "writes the request" => lent.request.fill(E::default()),
        "writes what it reads" if !changing => lent.state.fill(E::default()),
        "aligned alone" if misaligned && !E::ALIGNED => reply.number = 200,
        "words unlike bytes" if E::ALIGNED && reply.number == 203 => reply.number = 202,
        _ => {}
    }
    reply
}

/// The calls with a netmask.
fn masked<E: Element>(call: Call, lent: Lent<E>) -> Reply {
    let Lent {
        state,
        request,
        buffer,
    } = lent;
    if fault() == "a mask is a prefix" {
        return E::model(call, state, request, buffer).into();
    }
    E::masked(call, state, request, buffer).into()
}

/// The reader of messages.
fn read<E: Element>(message: &[u8], request: &mut [E], up: u32) -> Reply {
    let fault = fault();
    let reply = match fault.as_str() {
        "a message's last byte lost" => {
            E::read(&message[..message.len().saturating_sub(1)], request, up)
        }
        "the host's word lost" => E::read(message, request, 0),
        _ => E::read(message, request, up),
    };
    match fault.as_str() {
        // SAFETY: none, this is the fault
        "past the request" => unsafe {
            request.as_mut_ptr_range().end.write(E::default());
        },
        "the request cleared behind" if reply.number == 0 => {
            let Some(last) = request.last_mut() else {
                return reply.into();
            };
            *last = E::default();
        }
        _ => {}
    }
    reply.into()
}

/// The writer of events.
fn write<E: Element>(event: &mut [E], message: &mut [u8], given: Given) -> Reply {
    let fault = fault();
    let given = match fault.as_str() {
        "half a writer's clock" => Given {
            now: u64::from(given.now as u32),
            ..given
        },
        "sequence and port swapped" => Given {
            sequence: given.port,
            port: given.sequence,
            ..given
        },
        _ => given,
    };
    let before = message.to_vec();
    let mut reply = E::write(event, message, given);
    match fault.as_str() {
        // SAFETY: none, this is the fault; the comparison lends guarded slices
        "past the message" => unsafe {
            message.as_mut_ptr_range().end.write(0);
        },
        "the message cleared behind" if reply.number == 0 => {
            message[reply.value as usize..].fill(0);
        }
        "a refused message cleared" if reply.number == 201 => message.fill(0),
        "writes the event" => event.fill(E::default()),
        "padding as it was" if reply.number == 0 => {
            for at in padding(&message[..reply.value as usize]) {
                message[at] = before[at];
            }
        }
        "flags' high byte dropped" if reply.number == 0 => message[7] = 0,
        "215 bytes are enough" if message.len() == 215 => {
            let mut longer = vec![0; 216];
            reply = E::write(event, &mut longer, given);
            let length = (reply.value as usize).min(215);
            message[..length].copy_from_slice(&longer[..length]);
        }
        "events' words unlike bytes" if E::ALIGNED && reply.number == 201 => reply.number = 202,
        _ => {}
    }
    reply.into()
}

/// The places of the padding behind a message's attributes.
fn padding(message: &[u8]) -> Vec<usize> {
    let mut all = Vec::new();
    // behind the header, and ifaddrmsg or rtmsg
    let mut at = if message[4] < 24 { 24 } else { 28 };
    while at < message.len() {
        let end = at + usize::from(message[at]);
        at = end.next_multiple_of(4);
        all.extend(end..at);
    }
    all
}

/// A part of a listing.
fn part<E: Element>(mut ask: Ask, state: &mut [E], listing: &mut [E], cursor: &mut [E]) -> Reply {
    let fault = fault();
    match fault.as_str() {
        "begin for next" => ask.take = Take::Begin,
        "next for begin" => ask.take = Take::Next,
        _ => {}
    }
    let before = cursor.to_vec();
    let mut reply = Reply::from(E::part(ask, state, listing, cursor));
    match fault.as_str() {
        "swapped mark and end" => (reply.present, reply.second) = (reply.second, reply.present),
        // SAFETY: none, this is the fault; the comparison lends guarded slices
        "past the cursor" => unsafe {
            cursor.as_mut_ptr_range().end.write(E::default());
        },
        "past the listing" => unsafe {
            listing.as_mut_ptr_range().end.write(E::default());
        },
        "the cursor's last word not written back" if !E::ALIGNED => {
            let last = before.len().saturating_sub(4);
            cursor[last..].copy_from_slice(&before[last..]);
        }
        "a part clears what it reads" => state.fill(E::default()),
        "the listing cleared behind" if reply.number == 0 => {
            if let Some(last) = listing.last_mut() {
                *last = E::default();
            }
        }
        "part words unlike bytes" if E::ALIGNED => reply.second = 0,
        _ => {}
    }
    reply
}

/// The rows of a recording.
fn rebuild<E: Element>(recording: &mut [E], rows: &mut [E]) -> Reply {
    let fault = fault();
    let before = rows.to_vec();
    let mut reply = Reply::from(E::rebuild(recording, rows));
    match fault.as_str() {
        // SAFETY: none, this is the fault; the comparison lends guarded slices
        "past the rows" => unsafe {
            rows.as_mut_ptr_range().end.write(E::default());
        },
        "the rows cleared behind" if reply.number == 0 => {
            if let Some(last) = rows.last_mut() {
                *last = E::default();
            }
        }
        "the rows not written back" if !E::ALIGNED => rows.copy_from_slice(&before),
        "writes the recording" => recording.fill(E::default()),
        "a recording's words unlike bytes" if E::ALIGNED && reply.number == 209 => {
            reply.number = 208;
        }
        _ => {}
    }
    reply
}

/// Two recordings held together.
fn same<E: Element>(first: &mut [E], second: &mut [E]) -> Reply {
    let fault = fault();
    let reply = match fault.as_str() {
        "first and second swapped" => E::same(second, first),
        "the first recording for both" => E::same(first, first),
        _ => E::same(first, second),
    };
    if fault == "writes the second recording" {
        second.fill(E::default());
    }
    reply.into()
}

/// Destinations looked up together.
fn many<E: Element>(state: &mut [E], destinations: &mut [E], answers: &mut [E]) -> Reply {
    let fault = fault();
    let before = answers.to_vec();
    let mut reply = Reply::from(E::many(state, destinations, answers));
    match fault.as_str() {
        "swapped count" => (reply.value, reply.second) = (reply.second, reply.value),
        // SAFETY: none, this is the fault; the comparison lends guarded slices
        "past the answers" => unsafe {
            answers.as_mut_ptr_range().end.write(E::default());
        },
        "the answers cleared behind" if reply.number == 0 => {
            if let Some(last) = answers.last_mut() {
                *last = E::default();
            }
        }
        "the answers not written back" if !E::ALIGNED => answers.copy_from_slice(&before),
        "writes the destinations" => destinations.fill(E::default()),
        "destinations' spare bytes overlooked"
            if !E::ALIGNED && !destinations.len().is_multiple_of(4) =>
        {
            let whole = destinations.len() / 4 * 4;
            return E::many(state, &destinations[..whole], answers).into();
        }
        "210 before 201 on bytes"
            if !E::ALIGNED && reply.number == 201 && destinations.len() > 4 * many::MOST =>
        {
            reply.number = 210;
        }
        "many words unlike bytes" if E::ALIGNED && reply.number == 211 => reply.number = 210,
        _ => {}
    }
    reply
}

/// The check alone: what `local4` refuses.
fn checked(local4: Reply) -> Reply {
    let lax = fault() == "a lax check" && local4.number == 201;
    Reply {
        number: if lax { 0 } else { local4.number },
        present: 0,
        value: 0,
        second: 0,
    }
}

macro_rules! exports {
    ($element:ty, $prefix:literal, $run:ident: $(
        $name:ident($($slice:ident $length:ident),*; $($number:ident: $of:ty),*) $call:expr;
    )*) => {$(
        /// # Safety
        /// Each pointer and length are those of one slice.
        #[unsafe(export_name = concat!($prefix, stringify!($name)))]
        pub unsafe extern "C" fn $name(
            $($slice: *mut $element, $length: usize,)* $($number: $of),*
        ) -> Reply {
            #[allow(unused_mut)]
            let mut lent = Lent { state: &mut [], request: &mut [], buffer: &mut [] };
            $(lent.$slice = unsafe { from_raw_parts_mut($slice, $length) };)*
            $run::<$element>($call, lent)
        }
    )*};
}

/// The functions that take a part of a listing.
macro_rules! parts {
    ($element:ty, $prefix:literal: $($name:ident $take:ident),*) => {$(
        /// # Safety
        /// Each pointer and length are those of one slice.
        #[unsafe(export_name = concat!($prefix, stringify!($name)))]
        pub unsafe extern "C" fn $name(
            state: *mut $element,
            state_length: usize,
            listing: *mut $element,
            listing_length: usize,
            cursor: *mut $element,
            cursor_length: usize,
            rows: u32,
        ) -> Reply {
            let state = unsafe { from_raw_parts_mut(state, state_length) };
            let listing = unsafe { from_raw_parts_mut(listing, listing_length) };
            let cursor = unsafe { from_raw_parts_mut(cursor, cursor_length) };
            let take = Take::$take;
            part::<$element>(Ask { take, rows }, state, listing, cursor)
        }
    )*};
}

/// The functions that are lent two slices and nothing else.
macro_rules! recordings {
    ($element:ty, $prefix:literal: $($name:ident),*) => {$(
        /// # Safety
        /// Each pointer and length are those of one slice.
        #[unsafe(export_name = concat!($prefix, stringify!($name)))]
        pub unsafe extern "C" fn $name(
            first: *mut $element,
            first_length: usize,
            second: *mut $element,
            second_length: usize,
        ) -> Reply {
            let first = unsafe { from_raw_parts_mut(first, first_length) };
            let second = unsafe { from_raw_parts_mut(second, second_length) };
            super::$name::<$element>(first, second)
        }
    )*};
}

const NONE: Vec<u32> = Vec::new();

/// All functions of one kind of element.
macro_rules! all {
    ($element:ty, $prefix:literal) => {
        use super::*;

        exports! { $element, $prefix, run:
            up(state a, buffer b; now: u64) Call::Up { now };
            down(state a, buffer b;) Call::Down;
            add_v4(state a, request b, buffer c; now: u64) Call::AddV4 { request: NONE, now };
            del_v4(state a, request b, buffer c;) Call::DelV4 { request: NONE };
            expire(state a, buffer b; now: u64, allowance: u64)
                Call::Expire { now, allowance };
            add_route4(state a, request b, buffer c;) Call::AddRoute4 { request: NONE };
            del_route4(state a, request b, buffer c;) Call::DelRoute4 { request: NONE };
            dump4(state a, buffer b;) Call::Dump4;
            lookup4(state a, buffer b; ip: u32) Call::Lookup4 { ip };
            lookup4_flow(state a, buffer b; ip: u32, tos: u32, oif: u32)
                Call::Lookup4Flow { ip, tos, oif };
            local4(state a; ip: u32) Call::Local4 { ip };
            source4(state a, request b; ip: u32) Call::Source4 { row: NONE, ip };
            source(state a; ip: u32) Call::Source { ip };
            select4(state a; present: u32, dst: u32, scope: u32)
                Call::Select4 { present, dst, scope };
            left(request a; now: u64) Call::Left { row: NONE, now };
        }

        exports! { $element, $prefix, masked:
            add_v4_mask(state a, request b, buffer c; now: u64)
                Call::AddV4 { request: NONE, now };
            del_v4_mask(state a, request b, buffer c;) Call::DelV4 { request: NONE };
        }

        /// # Safety
        /// The pointer and length are those of one slice.
        #[unsafe(export_name = concat!($prefix, "check"))]
        pub unsafe extern "C" fn check(state: *mut $element, length: usize) -> Reply {
            checked(unsafe { local4(state, length, 0) })
        }

        /// # Safety
        /// Each pointer and length are those of one slice.
        #[unsafe(export_name = concat!($prefix, "read"))]
        pub unsafe extern "C" fn read(
            message: *const u8,
            message_length: usize,
            request: *mut $element,
            request_length: usize,
            up: u32,
        ) -> Reply {
            let message = unsafe { from_raw_parts(message, message_length) };
            let request = unsafe { from_raw_parts_mut(request, request_length) };
            super::read::<$element>(message, request, up)
        }

        /// # Safety
        /// Each pointer and length are those of one slice.
        #[unsafe(export_name = concat!($prefix, "write"))]
        pub unsafe extern "C" fn write(
            event: *mut $element,
            event_length: usize,
            message: *mut u8,
            message_length: usize,
            sequence: u32,
            port: u32,
            now: u64,
        ) -> Reply {
            let event = unsafe { from_raw_parts_mut(event, event_length) };
            let message = unsafe { from_raw_parts_mut(message, message_length) };
            let given = Given {
                sequence,
                port,
                now,
            };
            super::write::<$element>(event, message, given)
        }

        parts! { $element, $prefix: dump4_begin Begin, dump4_next Next }
        recordings! { $element, $prefix: rebuild, same }

        /// # Safety
        /// Each pointer and length are those of one slice.
        #[unsafe(export_name = concat!($prefix, "lookup4_many"))]
        pub unsafe extern "C" fn lookup4_many(
            state: *mut $element,
            state_length: usize,
            destinations: *mut $element,
            destinations_length: usize,
            answers: *mut $element,
            answers_length: usize,
        ) -> Reply {
            let state = unsafe { from_raw_parts_mut(state, state_length) };
            let destinations = unsafe { from_raw_parts_mut(destinations, destinations_length) };
            let answers = unsafe { from_raw_parts_mut(answers, answers_length) };
            many::<$element>(state, destinations, answers)
        }
    };
}

pub mod bytes {
    all! { u8, "interface4_" }
}
pub mod words {
    all! { u32, "interface4w_" }
}

/// The prefix of a netmask.
#[unsafe(export_name = "interface4_prefix")]
pub extern "C" fn prefix(mask: u32) -> Reply {
    match mask {
        0 if fault() == "no mask of no ones" => oracle::call::Reply::refused(207),
        _ => netmask::paper(mask),
    }
    .into()
}

/// What the library says of itself.
#[unsafe(export_name = "interface4_sizes")]
pub extern "C" fn sizes() -> Reply {
    Reply {
        number: 0,
        present: 10,
        value: if fault() == "other sizes" {
            9_509
        } else {
            9_541
        },
        second: 385,
    }
}
