//! Visitors that may pass over tables.

use crate::listing::summaries::reached_table::ReachedTable;
use crate::listing::summaries::visitor::Visitor;

/// A visitor that takes items of tables, as their mappings, one after the other, and may pass over tables.
pub(crate) trait TableVisitor<T> {
    /// The reason why an item isn't taken or a table isn't remembered.
    type Error;

    /// Takes an item.
    ///
    /// # Proved
    ///
    /// ```text
    /// ensures { OnOk result ((visited : Table → List T) → Visits visited self.old self.new (item ∷ [])) }
    /// ```
    fn visit(&mut self, item: T) -> Result<(), Self::Error>;

    /// Returns true if the items of a table wouldn't change the visitor.
    ///
    /// # Proved
    ///
    /// ```text
    /// requires low { 1 ≤ table.now.level }
    /// requires high { table.now.level < 5 }
    /// requires inside { table.now.start + position_count table.now.level ≤ position_count 5 }
    /// ensures { result ≡ true → (visited : Table → List T) → Visits visited self.now self.now (visited table.now) }
    /// ```
    fn passes_over(&self, table: &ReachedTable) -> bool;

    /// Remembers a table whose items were taken.
    ///
    /// # Proved
    ///
    /// ```text
    /// requires low { 1 ≤ table.now.level }
    /// requires high { table.now.level < 5 }
    /// requires inside { table.now.start + position_count table.now.level ≤ position_count 5 }
    /// ensures { OnOk result ((visited : Table → List T) (before : Self) → Visits visited before self.old (visited table.now) → Visits visited before self.new (visited table.now)) }
    /// ```
    fn remember(&mut self, table: &ReachedTable) -> Result<(), Self::Error>;
}

/// A visitor that passes over no table.
///
/// The visitor of items is a type parameter so that contracts can identify it once it is returned.
pub(crate) struct EachTable<'a, V> {
    /// The visitor of items.
    visitor: &'a mut V,
}

impl<'a, V> EachTable<'a, V> {
    /// Creates a visitor that passes over no table.
    pub(crate) fn new(visitor: &'a mut V) -> Self {
        EachTable { visitor }
    }
}

impl<T, V: Visitor<T>> TableVisitor<T> for EachTable<'_, V> {
    type Error = V::Error;

    /// Passes an item on.
    fn visit(&mut self, item: T) -> Result<(), V::Error> {
        self.visitor.visit(item)
    }

    fn passes_over(&self, _table: &ReachedTable) -> bool {
        false
    }

    fn remember(&mut self, _table: &ReachedTable) -> Result<(), V::Error> {
        Ok(())
    }
}
