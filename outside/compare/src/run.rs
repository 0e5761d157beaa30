//! A run: cases made in one thread, answered and compared in another.

use std::sync::mpsc::{sync_channel, SyncSender};
use std::thread;

use crate::cases::{case, each_case, shares, Case, Sort, Wanted};
use crate::desk::Library;
use crate::request::{Reply, Request};
use crate::tally::Tally;

/// The first case on which the library and the model differ.
pub struct Difference {
    pub name: String,
    pub text: String,
}

/// A batch is sent when its requests and replies have about so many words.
const BATCH_WORDS: usize = 1 << 16;

/// Cases on their way to the library; the requests stand apart to be lent.
#[derive(Default)]
struct Batch {
    requests: Vec<Request>,
    expected: Vec<Expected>,
    words: usize,
}

/// What is kept of a case beside its request.
struct Expected {
    sort: usize,
    index: u64,
    variety: usize,
    reply: Reply,
}

impl Batch {
    fn push(&mut self, case: Case) {
        let of_request = match &case.request {
            Request::Read { sheet, .. }
            | Request::Work { sheet, .. }
            | Request::Export { sheet, .. }
            | Request::Why { sheet, .. } => sheet.len() / 4,
            Request::Import { text, .. } => text.len() / 4,
            Request::Check { block, .. } => block.len() / 4,
            Request::Write { events, .. } => 4 * events.len(),
            Request::Tracks(request) => request.own_words(),
            _ => 0,
        };
        self.words += case.expected.len() + of_request;
        self.requests.push(case.request);
        self.expected.push(Expected {
            sort: case.sort,
            index: case.index,
            variety: case.variety,
            reply: case.expected,
        });
    }
}

/// Compares the library with the model on a whole run.
pub fn compare(
    sorts: &[Sort],
    seed: u64,
    wanted: Wanted,
    library: &mut dyn Library,
) -> Result<Tally, Difference> {
    let names: Vec<&str> = sorts.iter().map(|sort| sort.name).collect();
    compare_sorts(sorts, seed, wanted, &names, library)
}

/// The same on the cases of these sorts alone.
pub fn compare_sorts(
    sorts: &[Sort],
    seed: u64,
    wanted: Wanted,
    names: &[&str],
    library: &mut dyn Library,
) -> Result<Tally, Difference> {
    let mut shares = shares(wanted);
    for (share, sort) in shares.iter_mut().zip(sorts) {
        *share *= u64::from(names.contains(&sort.name));
    }
    let tally = Tally::new(sorts);
    compare_shares(sorts, seed, &shares, library, tally, Tally::add)
}

/// The same on so many of each sort, and every case is added to the tally.
pub fn compare_shares<T: Send>(
    sorts: &[Sort],
    seed: u64,
    shares: &[u64],
    library: &mut dyn Library,
    tally: T,
    add: fn(&mut T, &[Sort], &Case),
) -> Result<T, Difference> {
    thread::scope(|scope| {
        let (sender, batches) = sync_channel(2);
        let maker = scope.spawn(move || make_batches(sorts, seed, shares, &sender, tally, add));
        for batch in batches {
            // Returning drops the receiver, and the maker's next batch ends it.
            check(sorts, &batch, library)?;
        }
        Ok(maker.join().expect("the maker of cases ends well"))
    })
}

fn make_batches<T>(
    sorts: &[Sort],
    seed: u64,
    shares: &[u64],
    sender: &SyncSender<Batch>,
    mut tally: T,
    add: fn(&mut T, &[Sort], &Case),
) -> T {
    let mut batch = Batch::default();
    each_case(sorts, seed, shares, &mut |case| {
        add(&mut tally, sorts, &case);
        batch.push(case);
        if batch.words < BATCH_WORDS {
            return true;
        }
        sender.send(std::mem::take(&mut batch)).is_ok()
    });
    // A receiver that has gone has found its difference.
    let _ = sender.send(batch);
    tally
}

fn check(sorts: &[Sort], batch: &Batch, library: &mut dyn Library) -> Result<(), Difference> {
    let mut replies = library.answer(&batch.requests).into_iter();
    for (request, expected) in batch.requests.iter().zip(&batch.expected) {
        let given = replies.next();
        if given.as_ref() != Some(&expected.reply) {
            let sort = &sorts[expected.sort];
            let name = format!("{}:{}", sort.name, expected.index);
            let variety = &sort.varieties[expected.variety];
            let text = difference(request, variety, given.as_deref(), &expected.reply);
            return Err(Difference { name, text });
        }
    }
    Ok(())
}

/// The inputs in short, and the first word that differs.
fn difference(request: &Request, variety: &str, given: Option<&[u32]>, right: &[u32]) -> String {
    let inputs = format!("\"{variety}\": {}", request.short());
    let Some(given) = given else {
        return format!("{inputs}\n  the library gave no reply, or one of no use");
    };
    let same = given.iter().zip(right).take_while(|(a, b)| a == b).count();
    match (given.get(same), right.get(same)) {
        (Some(gave), Some(expects)) => {
            let word = request.name_of(right, same);
            format!(
                "{inputs}\n  {word} (word {same} of the reply): \
                 the library gave {gave} ({gave:#x}), the model expects {expects} ({expects:#x})"
            )
        }
        _ => format!(
            "{inputs}\n  the library gave {} words, the model expects {}",
            given.len(),
            right.len()
        ),
    }
}

/// The case that a difference names, from the seed alone.
pub fn named_case(sorts: &[Sort], seed: u64, name: &str) -> Option<Case> {
    let (sort, index) = name.split_once(':')?;
    let index = index.parse().ok()?;
    let sort = sorts.iter().position(|known| known.name == sort)?;
    Some(case(sorts, seed, sort, index))
}

/// Compares the library with the model on one case alone.
pub fn only(sorts: &[Sort], case: Case, library: &mut dyn Library) -> Result<(), Difference> {
    let mut batch = Batch::default();
    batch.push(case);
    check(sorts, &batch, library)
}
