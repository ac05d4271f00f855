//! How many bytes of stack a call uses: it runs on a painted stack of its own,
//! and the paint that is left tells. For x86-64.

use std::arch::asm;

const WORDS: usize = 64 * 1024;
const PAINT: u128 = 0xa5a5_a5a5_a5a5_a5a5_a5a5_a5a5_a5a5_a5a5;

/// A stack of 1 MiB. Its words keep the alignment of 16 bytes.
pub struct PaintedStack {
    words: Vec<u128>,
}

impl Default for PaintedStack {
    fn default() -> Self {
        PaintedStack {
            words: vec![PAINT; WORDS],
        }
    }
}

extern "C" fn enter<F: FnMut()>(call: &mut F) {
    call();
}

impl PaintedStack {
    /// Runs a call on this stack. A panic in it ends the program.
    pub fn run<F: FnMut()>(&mut self, mut call: F) {
        let top = self.words.as_mut_ptr_range().end;
        let function: extern "C" fn(&mut F) = enter::<F>;
        // SAFETY: the stack is aligned and large, r12 keeps the old one, and `call` outlives it.
        unsafe {
            asm!(
                "xchg rsp, r12",
                "call {function}",
                "mov rsp, r12",
                function = in(reg) function,
                in("rdi") &mut call,
                inout("r12") top => _,
                clobber_abi("C"),
            );
        }
    }

    /// The most bytes that any call has used so far, from the top down to the
    /// last byte without its paint. The call's own return address counts; bytes
    /// reserved at the far end and never written do not.
    pub fn used(&self) -> usize {
        let paint = PAINT.to_ne_bytes();
        let bytes = self.words.iter().flat_map(|word| word.to_ne_bytes());
        let left = bytes.take_while(|&byte| byte == paint[0]).count();
        self.words.len() * paint.len() - left
    }
}
