//! The commands: a function for each, heads, what stands before a form, and kinds of forms, as build.rs makes them from the proved table.

/// What stands before the form.
#[derive(Clone, Copy)]
pub(crate) enum Args {
    Nothing,
    Offset,
    Names,
    Pairs,
    Places,
}

/// Which kind of form is taken.
#[derive(Clone, Copy)]
pub(crate) enum Kind {
    Either,
    Predicate,
    NamedRow,
}

/// A command's head, with its bracket and its space, what stands before its form, and the form's kind.
pub(crate) struct Entry {
    pub head: &'static str,
    pub command: Command,
    pub args: Args,
    pub kind: Kind,
}

include!(concat!(env!("OUT_DIR"), "/commands.rs"));
