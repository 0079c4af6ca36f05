//! The calls of a session that only read the slot, and hand back the operation of the flash. They
//! are for a slot that a driver writes.

use crate::check::Inputs;
use crate::ffi;
use crate::flash::Operation;
use crate::refusal::Refusal;
use crate::session::Session;

/// The calls over a slot that a driver writes. Make the operation before the next call. If it
/// fails, drop the session and begin again.
impl Session {
    /// Plans a store of zero in the slot's first word the first time, and the erase of the next page
    /// from then on, from the first up. That store needs no erased word; every other one does. The
    /// session is then as [`erase`](Session::erase) leaves it.
    ///
    /// # Errors
    ///
    /// Those of [`erase`](Session::erase).
    pub fn plan_erase(&mut self, slot: &[u8]) -> Result<Operation, Refusal> {
        let mut operation = ffi::Operation::default();
        // SAFETY: the pointer and the length are those of one slice. The record is borrowed mutably
        // and the operation is a local, so they do not overlap.
        let number = unsafe {
            ffi::thimmorel_plan_erase(
                &mut self.record,
                slot.as_ptr(),
                slot.len() as u64,
                &mut operation,
            )
        };
        Refusal::unless_zero(number)?;
        Ok(Operation::from_words(operation))
    }

    /// Takes the next bytes of the file, and plans the store of a word that they complete. Tells
    /// how many bytes of the piece were taken, and the operation: nothing if no word is complete,
    /// or if it is the first. The session is then as [`fill`](Session::fill) leaves it.
    ///
    /// # Errors
    ///
    /// Those of [`fill`](Session::fill).
    pub fn plan_fill(&mut self, piece: &[u8], slot: &[u8]) -> Result<(usize, Operation), Refusal> {
        let mut taken = 0;
        let mut operation = ffi::Operation::default();
        // SAFETY: each pointer and length are those of one slice. The record is borrowed mutably
        // and the rest that is written are locals, so they overlap nothing.
        let number = unsafe {
            ffi::thimmorel_plan_fill(
                &mut self.record,
                piece.as_ptr(),
                piece.len() as u64,
                slot.as_ptr(),
                slot.len() as u64,
                &mut taken,
                &mut operation,
            )
        };
        Refusal::unless_zero(number)?;
        Ok((taken as usize, Operation::from_words(operation)))
    }

    /// Checks the new file as [`check_file`](crate::check_file) does and, if it is accepted, plans
    /// the store of its first word. `Ok` is not Done: make the operation, then call
    /// [`confirm`](Session::confirm).
    ///
    /// # Errors
    ///
    /// Those of [`close`](Session::close).
    pub fn plan_close(&mut self, slot: &[u8], inputs: Inputs) -> Result<Operation, Refusal> {
        let mut answer = ffi::Answer::default();
        let mut operation = ffi::Operation::default();
        // SAFETY: the pointer and the length are those of one slice. The record is borrowed mutably
        // and the structs are locals, so they do not overlap.
        let number = unsafe {
            ffi::thimmorel_plan_close(
                &mut self.record,
                slot.as_ptr(),
                slot.len() as u64,
                &inputs.words(),
                &mut answer,
                &mut operation,
            )
        };
        Refusal::unless_zero_at(number, answer)?;
        Ok(Operation::from_words(operation))
    }

    /// Reads the slot once the operation of [`plan_close`](Session::plan_close) is made. `Ok` is
    /// Done.
    ///
    /// # Errors
    ///
    /// In this order: [`Turn`](crate::Reason::Turn) if no accepted file waits for it;
    /// [`NotLanded`](crate::Reason::NotLanded) if the slot does not start with the file's first
    /// word. The session stays as it was.
    pub fn confirm(&mut self, slot: &[u8]) -> Result<(), Refusal> {
        // SAFETY: the pointer and the length are those of one slice. The record is borrowed
        // mutably, so they do not overlap.
        let number =
            unsafe { ffi::thimmorel_confirm(&mut self.record, slot.as_ptr(), slot.len() as u64) };
        Refusal::unless_zero(number)
    }
}
