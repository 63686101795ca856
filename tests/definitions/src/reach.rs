//! All that stands behind each promise.

use crate::Fault;
use crate::repository::{Id, Repository, Target};
use crate::twins::{LIST, Twin};
use std::collections::BTreeSet;

/// A promise, and what stands behind it.
#[derive(Debug)]
pub struct Promise {
    pub name: String,
    /// The file that it stands in.
    pub file: String,
    /// The heading that it stands under.
    pub heading: String,
    /// What its own text names.
    pub names: BTreeSet<Target>,
    /// What one has to believe: all that it names, and what these name, without twins and what is behind them alone.
    pub behind: BTreeSet<Id>,
    /// Names of the prover's modules among them.
    pub kit: BTreeSet<Target>,
    /// The twins among them.
    pub twins: BTreeSet<Id>,
}

/// The promises of the files, in their order. A twin that is not there, or that its promises do not speak of, is a fault.
pub fn promises(repository: &Repository, files: &[&str], twins: &[Twin]) -> Result<Vec<Promise>, Fault> {
    let ids: BTreeSet<Id> = twins.iter().map(id).collect();
    let mut statements = Vec::new();
    for file in files {
        let source = repository.source(file).ok_or_else(|| Fault::new(file, 0, "there is no such file"))?;
        statements.extend(source.definitions.iter().map(|definition| (*file, definition)));
    }
    let mut promises = Vec::new();
    for (file, definition) in statements {
        let statement = Id { file: file.into(), name: definition.name.clone() };
        let names = repository.statement_references(&statement)?;
        promises.push(Promise::of(repository, statement, &definition.heading, names, &ids)?);
    }
    for twin in twins {
        check_twin(repository, &promises, twin)?;
    }
    Ok(promises)
}

impl Promise {
    /// A promise with the names in its text.
    pub fn of(
        repository: &Repository,
        id: Id,
        heading: &str,
        names: BTreeSet<Target>,
        twins: &BTreeSet<Id>,
    ) -> Result<Promise, Fault> {
        let mut promise = Promise {
            name: id.name,
            file: id.file,
            heading: heading.into(),
            names: names.clone(),
            behind: BTreeSet::new(),
            kit: BTreeSet::new(),
            twins: BTreeSet::new(),
        };
        promise.follow(repository, names, twins)?;
        Ok(promise)
    }

    /// Adds all that is behind these.
    fn follow(&mut self, repository: &Repository, names: BTreeSet<Target>, twins: &BTreeSet<Id>) -> Result<(), Fault> {
        let mut left: Vec<Target> = names.into_iter().collect();
        while let Some(target) = left.pop() {
            match target {
                Target::Kit { .. } => {
                    self.kit.insert(target);
                }
                Target::Own(id) if twins.contains(&id) => {
                    self.twins.insert(id);
                }
                Target::Own(id) => {
                    if self.behind.insert(id.clone()) {
                        left.extend(repository.references(&id)?);
                    }
                }
            }
        }
        Ok(())
    }
}

/// The definition that a twin is.
pub fn id(twin: &Twin) -> Id {
    Id { file: twin.file.into(), name: twin.name.into() }
}

/// A twin has to be there, and each of its promises has to speak of it.
fn check_twin(repository: &Repository, promises: &[Promise], twin: &Twin) -> Result<(), Fault> {
    let fault = |what: String| Fault::new(LIST, twin.line as usize, what);
    let Twin { name, file, .. } = twin;
    if repository.definition(&id(twin)).is_none() {
        return Err(fault(format!("{file} does not define the twin {name}")));
    }
    for tie in twin.promises {
        let Some(promise) = promises.iter().find(|promise| promise.name == *tie) else {
            return Err(fault(format!("there is no promise {tie}, which would tie the twin {name}")));
        };
        if !promise.twins.contains(&id(twin)) {
            return Err(fault(format!("the promise {tie} does not speak of the twin {name} in {file}")));
        }
    }
    Ok(())
}
