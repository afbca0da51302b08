//! How a format uses names, and the items of lists.
use crate::sys::{Argument, Request, ITER};

/// What a format wants of a value.
pub(crate) struct Wanted {
    /// The requests under which it is written, each once.
    pub(crate) requests: Vec<Request>,
    /// The arguments that write it as a list.
    pub(crate) lists: Vec<usize>,
    /// What is wanted of its items, once that is known.
    items: Option<usize>,
}

/// What an argument is about: an item of a list, by the list's argument, or else a name.
type About<'f> = (Option<usize>, &'f str);

/// The arguments of a format, by what they are about.
pub(crate) struct Uses<'f> {
    arguments: Vec<Argument>,
    /// What each argument is about, with the argument, in order.
    order: Vec<(About<'f>, usize)>,
    wanted: Vec<Wanted>,
}

impl<'f> Uses<'f> {
    pub(crate) fn of(arguments: Vec<Argument>, format: &'f str) -> Self {
        let binders = binders(&arguments);
        let mut order = Vec::with_capacity(arguments.len());
        for (index, argument) in arguments.iter().enumerate() {
            let about = match argument.name(format) {
                "" => (binders[index], ""),
                name => (None, name),
            };
            order.push((about, index));
        }
        order.sort_unstable();
        Uses {
            arguments,
            order,
            wanted: Vec::new(),
        }
    }

    /// The arguments about an item of a list, or about a name.
    fn users(&self, about: About<'_>) -> Vec<usize> {
        let first = self.order.partition_point(|(of, _)| *of < about);
        let users = self.order[first..].iter();
        users
            .take_while(|(of, _)| *of == about)
            .map(|(_, index)| *index)
            .collect()
    }

    /// The names that are looked up in the context, each once, with what is wanted of its value.
    pub(crate) fn names(&mut self) -> Vec<(&'f str, usize)> {
        let mut names: Vec<(&'f str, usize)> = Vec::with_capacity(self.order.len());
        let mut first = 0;
        while let Some(((None, name), _)) = self.order.get(first) {
            let rest = &self.order[first..];
            let count = rest
                .iter()
                .take_while(|(about, _)| *about == (None, *name))
                .count();
            let wanted = self.wanted_by(rest[..count].iter().map(|(_, index)| *index), false);
            names.push((name, self.wanted.len()));
            self.wanted.push(wanted);
            first += count;
        }
        names
    }

    /// What is wanted of the value of a name.
    pub(crate) fn named(&mut self, name: &str) -> usize {
        let wanted = self.wanted_by(self.users((None, name)), false);
        self.wanted.push(wanted);
        self.wanted.len() - 1
    }

    pub(crate) fn wanted(&self, wanted: usize) -> &Wanted {
        &self.wanted[wanted]
    }

    /// What is wanted of each item of a list of which this is wanted.
    pub(crate) fn items_of(&mut self, wanted: usize) -> usize {
        let lists = &self.wanted[wanted];
        if let Some(items) = lists.items {
            return items;
        }
        let users = lists
            .lists
            .iter()
            .flat_map(|list| self.users((Some(*list), "")));
        let is_plain = lists
            .lists
            .iter()
            .any(|list| self.arguments[*list].item_end == 0);
        let items = self.wanted_by(users, is_plain);
        self.wanted.push(items);
        let items = self.wanted.len() - 1;
        self.wanted[wanted].items = Some(items);
        items
    }

    /// What these arguments want, and the plain display of an item without a format.
    fn wanted_by(&self, users: impl IntoIterator<Item = usize>, is_plain: bool) -> Wanted {
        let mut requests = Vec::new();
        let mut lists = Vec::new();
        if is_plain {
            requests.push(Request::PLAIN);
        }
        for index in users {
            let request = self.arguments[index].request;
            if request.slot == ITER {
                lists.push(index);
            } else if !requests.contains(&request) {
                requests.push(request);
            }
        }
        Wanted {
            requests,
            lists,
            items: None,
        }
    }
}

/// Of each argument, the list whose item its empty name stands for.
fn binders(arguments: &[Argument]) -> Vec<Option<usize>> {
    let mut binders: Vec<Option<usize>> = Vec::with_capacity(arguments.len());
    // The lists whose groups are not yet passed, the innermost last.
    let mut open: Vec<usize> = Vec::new();
    for (index, argument) in arguments.iter().enumerate() {
        let place = argument.name_first;
        while open
            .last()
            .is_some_and(|list| group_end(&arguments[*list]) < place)
        {
            open.pop();
        }
        let binder = match open.last() {
            Some(list) if place < arguments[*list].item_end => Some(*list),
            Some(list) => binders[*list],
            None => None,
        };
        binders.push(binder);
        if argument.request.slot == ITER {
            open.push(index);
        }
    }
    binders
}

/// Where the groups of a list end.
fn group_end(list: &Argument) -> usize {
    list.item_end.max(list.join_end)
}
