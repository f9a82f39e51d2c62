//! The functions of the archive as `include/dansevik.h` declares them. Nothing checks these declarations against it but the
//! tests that call every one of them.

use super::answers::{Fault, Refusal};
use super::lent::Signature;

/// `struct dansevik_answer`.
#[repr(C)]
pub struct Answer {
    refusal: u64,
    position: u64,
    pub count: u64,
    pub components: u64,
    pub offset: u64,
}

impl Answer {
    /// Itself where it is an acceptance.
    pub fn accepted(self) -> Result<Answer, Refusal> {
        if self.refusal == 0 {
            return Ok(self);
        }
        let fault = Fault::numbered(self.refusal).expect("the archive answers a refusal of the table");
        Err(Refusal { fault, position: self.position })
    }
}

/// A call that writes rows of a component.
pub type Rows = unsafe extern "C" fn(*const u8, usize, *mut Signature, usize, u64, *mut u8, usize) -> Answer;

extern "C" {
    pub fn dansevik_judge(file: *const u8, file_bytes: usize, table: *mut Signature, table_rows: usize) -> Answer;
    pub fn dansevik_lower(
        file: *const u8,
        bytes: usize,
        table: *mut Signature,
        length: usize,
        component: u64,
        out: *mut u8,
        room: usize,
    ) -> Answer;
    pub fn dansevik_list(
        file: *const u8,
        bytes: usize,
        table: *mut Signature,
        length: usize,
        component: u64,
        out: *mut u8,
        room: usize,
    ) -> Answer;
    pub fn dansevik_pack(list: *const u8, list_bytes: usize, out: *mut u8, out_bytes: usize) -> Answer;
    pub fn dansevik_unpack(file: *const u8, file_bytes: usize, out: *mut u8, out_bytes: usize) -> Answer;
    pub fn dansevik_record(file: *const u8, file_bytes: usize, record: u64) -> Answer;
}
