//! The values that a format names, by the arguments that the library finds in it.
use crate::formattable::Formattable;
use crate::laid::Laid;
use crate::sys::{self, Field};
use crate::uses::{Uses, Wanted};
use crate::{Context, Error, Result};

/// Lays the fields of a format, with the items of their lists.
pub(crate) struct Row<'f, 'c> {
    format: &'f str,
    uses: Uses<'f>,
    laid: Laid<'c>,
    /// The lists whose items are still to come, in order, with what is wanted of each item.
    lists: Vec<(&'c [Formattable<'c>], usize)>,
    /// How many items there will be.
    reserved: usize,
}

impl<'f: 'c, 'c> Row<'f, 'c> {
    fn new(format: &'f str) -> Result<Self> {
        Ok(Row {
            uses: Uses::of(sys::arguments(format).ok_or_else(Error::refused)?, format),
            laid: Laid::new(0),
            format,
            lists: Vec::new(),
            reserved: 0,
        })
    }

    /// The values that a format names in a context. A name without a value has no field.
    pub(crate) fn of(format: &'f str, context: &'c dyn Context) -> Result<Laid<'c>> {
        let mut row = Row::new(format)?;
        let names = row.uses.names();
        row.laid.fields.reserve_exact(names.len());
        for (name, wanted) in names {
            if let Some(value) = context.get(name) {
                let field = row.field(&value, wanted).named(name);
                row.laid.fields.push(field);
            }
        }
        row.lay_items();
        Ok(row.laid)
    }

    /// The columns of a table, as fields, and its cells, as items; none if there is a list under
    /// `i`.
    pub(crate) fn table(
        format: &'f str,
        columns: &[(&'f str, Formattable<'c>)],
        cells: &[Formattable<'c>],
    ) -> Result<Option<Laid<'c>>> {
        let mut row = Row::new(format)?;
        let mut wanted = Vec::with_capacity(columns.len());
        for (name, example) in columns {
            let of_column = row.uses.named(name);
            let field = row.field(example, of_column).named(name);
            wanted.push(of_column);
            row.laid.fields.push(field);
        }
        row.laid.items.reserve_exact(cells.len());
        for (cell, wanted) in cells.iter().zip(wanted.iter().cycle()) {
            let item = row.field(cell, *wanted);
            row.laid.items.push(item);
        }
        Ok(row.lists.is_empty().then_some(row.laid))
    }

    /// Lays the items of the lists, level by level, behind one another.
    fn lay_items(&mut self) {
        let mut next = 0;
        while let Some((list, wanted)) = self.lists.get(next).copied() {
            next += 1;
            self.laid.expect_items(list.len(), self.format);
            for item in list {
                let field = self.field(item, wanted);
                self.laid.items.push(field);
            }
        }
    }

    /// The field of a value of which this is wanted, without a name.
    fn field(&mut self, value: &Formattable<'c>, wanted: usize) -> Field<'c> {
        let Wanted {
            requests, lists, ..
        } = self.uses.wanted(wanted);
        if let (false, Some(list)) = (lists.is_empty(), value.list()) {
            let texts = self.laid.make(value, requests);
            let first = self.reserved;
            self.reserved += list.len();
            self.lists.push((list, self.uses.items_of(wanted)));
            return Field::list(first, self.reserved, texts);
        }
        self.laid.field(value, requests)
    }
}
