//! The proved SAE J1939 stack in C, for programs in Rust: each call, struct and constant of `j1939.h` by its name there, whose
//! comment says what it takes and answers.
#![no_std]
#![allow(non_camel_case_types)]

use core::ffi::{c_char, c_void};

// The structs are those of C where 64 bits stand at a multiple of 8 bytes, which is everywhere but on 32 bits of x86.
const _: () = assert!(core::mem::align_of::<u64>() == 8);

include!(concat!(env!("OUT_DIR"), "/j1939.rs"));

/// What a handle holds that holds nothing.
pub const J1939_EMPTY: j1939_handle = j1939_handle { part: 0, memory: 0 };
