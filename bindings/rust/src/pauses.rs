//! Runs that are put aside and gone on with.

use crate::{calls, panel, reply, room_for, Answer, Database, Query, Refusal, COLUMNS, NODES, PAUSE_ROOM, RUN_ROOM};

/// How a run that can be put aside stops where nothing is refused.
#[derive(Clone, Debug, PartialEq, Eq)]
pub enum Progress<'a> {
    Finished(Answer),
    /// The budget is spent, for which [`Query::run`] is refused with 19.
    Paused(Pause<'a>),
}

/// A run that was put aside: its next plan line, the lines run, and the workspace with the registers in place. It holds on to the query, the database and the
/// row limit, since only over these it goes on as the same run; as long as it is there neither of the first two changes.
///
/// ```
/// use capeshard::{Database, Progress, Query};
///
/// let doors = Database::read(b"guide=1\ntables=1\ncols=0,1\nrows=2\nrow=1,2\nrow=2,3\n").unwrap();
/// let both = Query::read(b"guide=1\nnodes=3\ntable=0\neq=0,2\ndrop=0\n").unwrap();
/// let Ok(Progress::Paused(pause)) = both.begin(&doors, 24, 2) else { panic!("three lines in two") };
/// assert_eq!((pause.next(), pause.ran()), (3, 2));
/// let Ok(Progress::Finished(answer)) = pause.resume(1) else { panic!("the third line is not the last") };
/// assert_eq!(Ok(answer), both.run(&doors, 24, 3));
/// ```
#[derive(Clone, Debug, PartialEq, Eq)]
pub struct Pause<'a> {
    run: Run<'a>,
    next: u32,
    ran: u32,
    workspace: Vec<u32>,
}

/// What is run, and where.
#[derive(Clone, Copy, Debug, PartialEq, Eq)]
pub(crate) struct Run<'a> {
    pub(crate) query: &'a Query,
    pub(crate) database: &'a Database,
    pub(crate) place: Place,
}

/// The desk with a row limit, or the panel.
#[derive(Clone, Copy, Debug, PartialEq, Eq)]
pub(crate) enum Place {
    Desk { rows: usize },
    Panel,
}

impl Query {
    /// Runs the query as [`Query::run`] does, but where the budget is spent (19) the run is put aside.
    pub fn begin<'a>(&'a self, database: &'a Database, rows: usize, budget: u32) -> Result<Progress<'a>, Refusal> {
        let run = Run { query: self, database, place: Place::Desk { rows } };
        run.begin(self.workspace(rows), budget)
    }
}

impl<'a> Pause<'a> {
    /// A pause that came from elsewhere, say from a file: the next plan line, counted from 1, the lines run, and the workspace. It is tested when it is gone
    /// on with (17, 23), and over the query, database and row limit of its run it goes on with that.
    pub fn of(
        query: &'a Query,
        database: &'a Database,
        rows: usize,
        (next, ran): (u32, u32),
        workspace: Vec<u32>,
    ) -> Pause<'a> {
        Pause { run: Run { query, database, place: Place::Desk { rows } }, next, ran, workspace }
    }

    /// The next plan line, counted from 1.
    pub fn next(&self) -> u32 {
        self.next
    }

    /// The lines run.
    pub fn ran(&self) -> u32 {
        self.ran
    }

    /// The registers, one a node, then one more a fix, each a count and as many rows of [`COLUMNS`] entries as the row limit, with zeros elsewhere.
    pub fn workspace(&self) -> &[u32] {
        &self.workspace
    }

    /// The most that a further budget may be, so that the lines run never pass 4,294,967,295 (23).
    pub fn most(&self) -> u32 {
        u32::MAX - self.ran
    }

    /// Goes on with at most so many further plan lines (as [`Query::run`], 23 after 16): the run ends as one with both budgets, wherever it was put aside. The
    /// pause stays as it is, and can be gone on with again.
    pub fn resume(&self, budget: u32) -> Result<Progress<'a>, Refusal> {
        let mut lent = Lent::new(self.run.place, self.workspace.clone());
        lent.pause = [self.next, self.ran];
        let Lent { workspace, answer, told, pause } = &mut lent;
        let Run { query, database, place } = self.run;
        // SAFETY: each pointer and length is that of one slice, and the written ones are borrowed here alone.
        let status = unsafe {
            match place {
                Place::Desk { rows } => calls::capeshard_resume(
                    query.flat.as_ptr(),
                    query.flat.len(),
                    database.flat.as_ptr(),
                    database.flat.len(),
                    database.store.as_ptr(),
                    database.store.len(),
                    NODES,
                    rows,
                    budget,
                    workspace.as_mut_ptr(),
                    workspace.len(),
                    answer.as_mut_ptr(),
                    answer.len(),
                    told.as_mut_ptr(),
                    told.len(),
                    pause.as_mut_ptr(),
                    pause.len(),
                ),
                Place::Panel => calls::capeshard_panel_resume(
                    query.flat.as_ptr(),
                    query.flat.len(),
                    database.flat.as_ptr(),
                    database.flat.len(),
                    database.store.as_ptr(),
                    database.store.len(),
                    budget,
                    workspace.as_mut_ptr(),
                    workspace.len(),
                    answer.as_mut_ptr(),
                    answer.len(),
                    told.as_mut_ptr(),
                    told.len(),
                    pause.as_mut_ptr(),
                    pause.len(),
                ),
            }
        };
        self.run.progress(status, lent)
    }

    /// The same pause at the desk, whose row limit is the panel's if it was one of the panel.
    pub fn at_desk(self) -> Pause<'a> {
        let rows = self.run.place.rows();
        Pause { run: Run { place: Place::Desk { rows }, ..self.run }, ..self }
    }

    /// The same pause at the panel, if its row limit is the panel's.
    pub fn at_panel(self) -> Option<Pause<'a>> {
        let panels = self.run.place.rows() == panel::ROWS;
        panels.then(|| Pause { run: Run { place: Place::Panel, ..self.run }, ..self })
    }
}

impl Place {
    fn rows(self) -> usize {
        match self {
            Place::Desk { rows } => rows,
            Place::Panel => panel::ROWS,
        }
    }
}

/// What a call is lent besides the query and the database.
struct Lent {
    workspace: Vec<u32>,
    answer: Vec<u32>,
    told: [u32; RUN_ROOM],
    pause: [u32; PAUSE_ROOM],
}

impl Lent {
    fn new(place: Place, workspace: Vec<u32>) -> Lent {
        let answer = vec![0; COLUMNS * room_for(place.rows())];
        Lent { workspace, answer, told: [0; RUN_ROOM], pause: [0; PAUSE_ROOM] }
    }
}

/// What is answered where the budget is spent.
const SPENT: u32 = 19;

impl<'a> Run<'a> {
    pub(crate) fn begin(self, workspace: Vec<u32>, budget: u32) -> Result<Progress<'a>, Refusal> {
        let mut lent = Lent::new(self.place, workspace);
        let Lent { workspace, answer, told, pause } = &mut lent;
        let Run { query, database, place } = self;
        // SAFETY: each pointer and length is that of one slice, and the written ones are borrowed here alone.
        let status = unsafe {
            match place {
                Place::Desk { rows } => calls::capeshard_begin(
                    query.flat.as_ptr(),
                    query.flat.len(),
                    database.flat.as_ptr(),
                    database.flat.len(),
                    database.store.as_ptr(),
                    database.store.len(),
                    NODES,
                    rows,
                    budget,
                    workspace.as_mut_ptr(),
                    workspace.len(),
                    answer.as_mut_ptr(),
                    answer.len(),
                    told.as_mut_ptr(),
                    told.len(),
                    pause.as_mut_ptr(),
                    pause.len(),
                ),
                Place::Panel => calls::capeshard_panel_begin(
                    query.flat.as_ptr(),
                    query.flat.len(),
                    database.flat.as_ptr(),
                    database.flat.len(),
                    database.store.as_ptr(),
                    database.store.len(),
                    budget,
                    workspace.as_mut_ptr(),
                    workspace.len(),
                    answer.as_mut_ptr(),
                    answer.len(),
                    told.as_mut_ptr(),
                    told.len(),
                    pause.as_mut_ptr(),
                    pause.len(),
                ),
            }
        };
        self.progress(status, lent)
    }

    fn progress(self, status: u64, lent: Lent) -> Result<Progress<'a>, Refusal> {
        match reply(status) {
            Ok(()) => Ok(Progress::Finished(Answer::of(&lent.answer, lent.told))),
            Err(Refusal { number: SPENT, .. }) => {
                let [next, ran] = lent.pause;
                Ok(Progress::Paused(Pause { run: self, next, ran, workspace: lent.workspace }))
            }
            Err(refusal) => Err(refusal),
        }
    }
}
