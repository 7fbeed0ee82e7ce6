//! The functions of rr.h, as they are.

use std::os::raw::c_void;

#[repr(C)]
#[derive(Clone, Copy)]
pub struct Handle {
    pub is_open: u8,
    pub at: *mut c_void,
}

#[repr(C)]
#[derive(Default)]
pub struct Call {
    pub kind: u32,
    pub area: u32,
    pub at: u64,
    pub len: usize,
}

#[repr(C)]
#[derive(Default)]
pub struct Ack {
    pub client: u32,
    pub reply: u32,
    pub seq: u64,
    pub owner: u32,
}

#[repr(C)]
#[derive(Default)]
pub struct Message {
    pub kind: u32,
    pub to: u32,
    pub len: usize,
}

#[repr(C)]
#[derive(Default)]
pub struct Holding {
    pub is_bound: u32,
    pub owner: u32,
    pub len: usize,
}

#[repr(C)]
#[derive(Default)]
pub struct Binding {
    pub is_bound: u32,
    pub owner: u32,
    pub name_len: usize,
    pub len: usize,
}

#[repr(C)]
#[derive(Default)]
pub struct Standing {
    pub decided: u64,
    pub facts: u64,
    pub nodes: u32,
    pub node: u32,
    pub suspects: u32,
    pub is_up: u32,
}

extern "C" {
    pub fn rr_version() -> u32;
    pub fn rr_open(node: *mut Handle, nodes: u32, number: u32, first: *const u8, first_len: usize, second: *const u8, second_len: usize, is_new: u32) -> u32;
    pub fn rr_close_handle(node: Handle);
    pub fn rr_is_up(node: *mut Handle) -> u32;
    pub fn rr_due(node: *mut Handle, call: *mut Call, out: *mut u8, out_len: usize) -> u32;
    pub fn rr_done(node: *mut Handle, is_done: u32) -> u32;
    pub fn rr_submit(node: *mut Handle, client: u32, seq: u64, kind: u32, name: *const u8, name_len: usize, value: *const u8, value_len: usize, owner: u32) -> u32;
    pub fn rr_hear(node: *mut Handle, bytes: *const u8, bytes_len: usize) -> u32;
    pub fn rr_tick(node: *mut Handle) -> u32;
    pub fn rr_suspect(node: *mut Handle, bits: u32) -> u32;
    pub fn rr_snapshot(node: *mut Handle) -> u32;
    pub fn rr_next_message(node: *mut Handle, message: *mut Message, out: *mut u8, out_len: usize) -> u32;
    pub fn rr_next_ack(node: *mut Handle, ack: *mut Ack) -> u32;
    pub fn rr_look(node: *mut Handle, name: *const u8, name_len: usize, holding: *mut Holding, out: *mut u8, out_len: usize) -> u32;
    pub fn rr_bound(node: *mut Handle, place: usize, binding: *mut Binding, name: *mut u8, name_len: usize, out: *mut u8, out_len: usize) -> u32;
    pub fn rr_status(node: *mut Handle, status: *mut Standing) -> u32;
    pub fn rr_decided(node: *mut Handle, place: usize, ack: *mut Ack, out: *mut u8, out_len: usize, len: *mut usize) -> u32;
    pub fn rr_watch(node: *mut Handle, from: usize, name: *const u8, name_len: usize, place: *mut usize) -> u32;
}
