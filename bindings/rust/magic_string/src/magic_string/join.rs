use crate::{MagicString, Refusal};

impl MagicString {
  /// Joins two lists of calls that were written against this desk: makes the calls of the
  /// first and then those of the second, if all of them together pass the checks of the
  /// any-order rule (docs/ANY-ORDER.md). Each is accepted then, and the second list and
  /// then the first would leave the same desk. [`Self::cuts`] tells the cuts of all calls
  /// together. Two empty lists on a source that is not empty change nothing.
  ///
  /// A list is records of a sheet, one behind the other, at most 200 and 57,344 bytes.
  /// [`Call::list`](crate::Call::list) makes one of calls, and the crate `sheet_script` one
  /// of a readable script.
  ///
  /// # Errors
  /// In this order [`Refusal::BadSheet`] for a list that breaks these rules,
  /// [`Refusal::NotApart`], [`Refusal::RefusedAlone`], [`Refusal::Limit`] for the space
  /// that the rule reckons. All leave the desk as it was.
  /// [`premises::broken`](crate::premises::broken) says which check fails and for which
  /// calls.
  ///
  /// # Example
  /// ```
  /// use magic_string::{Call, MagicString, Refusal};
  ///
  /// # fn main() -> Result<(), Refusal> {
  /// let mut s = MagicString::new("Wind north, 12 knots")?;
  /// let first = Call::list(&[Call::Update { start: 5, end: 10, text: "west" }]).unwrap();
  /// let second = Call::list(&[Call::Remove { start: 10, end: 14 }]).unwrap();
  /// assert_eq!(s.join(&first, &second)?.cuts(), 3);
  /// assert_eq!(s.to_string(), "Wind west knots");
  ///
  /// // Both remove the byte at 10.
  /// assert_eq!(s.join(&second, &second).err(), Some(Refusal::NotApart));
  /// # Ok(())
  /// # }
  /// ```
  pub fn join(&mut self, first: &[u8], second: &[u8]) -> Result<&mut Self, Refusal> {
    self.edit(|memory| memory.join(first, second))
  }
}
