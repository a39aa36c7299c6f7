//! The thread that writes to a store, so that games are played while others are filed. What it has filed is counted here and nowhere else.

use super::store::{Batch, Begun, Duplicates, Source, Store, Twin, Written};
use super::tally::Tally;
use crate::options::Stop;
use std::collections::HashSet;
use std::sync::Arc;
use std::sync::mpsc::{Receiver, Sender, SyncSender, channel, sync_channel};
use std::thread::{self, JoinHandle};

/// How many batches wait between the one that is made and the one that is written: none, so that two at most are in memory.
const WAITING: usize = 0;

/// What is sent to be written: games of one input, with what is counted of them if they are filed.
pub struct Load {
    pub name: Arc<[u8]>,
    pub batch: Batch,
    pub counted: Tally,
}

enum Job {
    Begin(Source),
    Write(Box<Load>),
}

/// What the store has told.
enum Told {
    Begun(Begun),
    Filed(Committed),
    Failed(String),
    Finished,
}

/// What a commit has told: what is counted, and which games are told as duplicates.
pub struct Committed {
    pub counted: Tally,
    pub twins: Vec<Duplicate>,
}

/// A game that equals one filed before, with the input and the line that it stands in.
pub struct Duplicate {
    pub name: Arc<[u8]>,
    pub line: u64,
    pub twin: Twin,
}

impl Load {
    /// What is counted of the batch when it is written.
    fn committed(mut self, written: Written, duplicates: Duplicates) -> Committed {
        let twins: HashSet<u64> = written.twins.iter().map(|twin| twin.number).collect();
        let skips = |number: u64| duplicates == Duplicates::Skip && twins.contains(&number);
        for game in &self.batch.games {
            if skips(game.number) {
                self.counted.skipped += 1;
                continue;
            }
            self.counted.filed += 1;
            self.counted.positions += game.keys.len() as u64;
            self.counted.moves += game.keys.len().saturating_sub(1) as u64;
        }
        self.counted.refused = self.batch.refused.len() as u64;
        self.counted.new = written.new;
        let games = &self.batch.games;
        let line = |number: u64| games.binary_search_by_key(&number, |game| game.number).map_or(0, |index| games[index].line);
        let told = if duplicates == Duplicates::Tell { written.twins } else { vec![] };
        let twins = told.into_iter().map(|twin| Duplicate { name: self.name.clone(), line: line(twin.number), twin }).collect();
        Committed { counted: self.counted, twins }
    }
}

/// The thread, as whoever sends to it sees it.
pub struct Writer {
    jobs: Option<SyncSender<Job>>,
    told: Receiver<Told>,
    thread: Option<JoinHandle<()>>,
    /// What commits have told and nobody has asked for yet.
    filed: Vec<Committed>,
}

impl Writer {
    pub fn new(store: Box<dyn Store>, duplicates: Duplicates) -> Result<Writer, Stop> {
        let (jobs, taken) = sync_channel(WAITING);
        let (tell, told) = channel();
        let thread = thread::Builder::new().spawn(move || serve(store, taken, &tell, duplicates));
        let thread = thread.map_err(|error| Stop::trouble(format!("a thread that writes: {error}")))?;
        Ok(Writer { jobs: Some(jobs), told, thread: Some(thread), filed: vec![] })
    }

    /// Begins a source, behind all that was sent before.
    pub fn begin(&mut self, source: Source) -> Result<Begun, Stop> {
        self.send(Job::Begin(source))?;
        loop {
            if let Some(begun) = self.hear()? {
                return Ok(begun);
            }
        }
    }

    /// Sends a batch; waits if too many wait already.
    pub fn write(&mut self, load: Load) -> Result<(), Stop> {
        self.send(Job::Write(Box::new(load)))
    }

    /// What commits have told since this was asked last.
    pub fn filed(&mut self) -> Result<Vec<Committed>, Stop> {
        while let Ok(told) = self.told.try_recv() {
            self.take(told)?;
        }
        Ok(std::mem::take(&mut self.filed))
    }

    /// Waits until all that was sent is written, or trouble ends it. What was filed until then can be asked for afterwards.
    pub fn finish(&mut self) -> Result<(), Stop> {
        self.jobs = None;
        let mut ended = Ok(());
        while let Ok(told) = self.told.recv() {
            ended = ended.and(self.take(told).map(|_| ()));
        }
        match self.thread.take().map(JoinHandle::join) {
            Some(Err(_)) => ended.and(Err(gone())),
            _ => ended,
        }
    }

    fn send(&mut self, job: Job) -> Result<(), Stop> {
        let sent = self.jobs.as_ref().is_some_and(|jobs| jobs.send(job).is_ok());
        if sent { Ok(()) } else { Err(self.finish().err().unwrap_or_else(gone)) }
    }

    /// The next that is told: where a source goes on, if it is that.
    fn hear(&mut self) -> Result<Option<Begun>, Stop> {
        match self.told.recv() {
            Ok(told) => self.take(told),
            Err(_) => Err(self.finish().err().unwrap_or_else(gone)),
        }
    }

    fn take(&mut self, told: Told) -> Result<Option<Begun>, Stop> {
        match told {
            Told::Begun(begun) => return Ok(Some(begun)),
            Told::Filed(committed) => self.filed.push(committed),
            Told::Failed(why) => return Err(Stop::trouble(why)),
            Told::Finished => {}
        }
        Ok(None)
    }
}

fn gone() -> Stop {
    Stop::trouble("the thread that writes to the store has ended")
}

/// Does what is sent, in order, until all is done or something fails.
fn serve(mut store: Box<dyn Store>, jobs: Receiver<Job>, tell: &Sender<Told>, duplicates: Duplicates) {
    for job in jobs {
        let done = match job {
            Job::Begin(source) => store.begin(&source).map(Told::Begun),
            Job::Write(load) => store.write(&load.batch).map(|written| Told::Filed(load.committed(written, duplicates))),
        };
        let failed = done.is_err();
        // Whoever has sent it may be gone.
        let _ = tell.send(done.unwrap_or_else(Told::Failed));
        if failed {
            return;
        }
    }
    let _ = tell.send(store.finish().map_or_else(Told::Failed, |()| Told::Finished));
}
