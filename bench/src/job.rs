//! One row of the table: the input made ahead, and what each subject does with it.

#[derive(Clone, Copy, Debug, PartialEq, Eq)]
pub enum Subject {
    /// The library's archive.
    Archive,
    /// The careful C of bench/careful, by gcc and by clang.
    Gcc,
    Clang,
    /// The plain Rust of second/.
    Rust,
    /// Messages by nanopb and by protobuf-c.
    Nanopb,
    ProtobufC,
}

impl Subject {
    pub const ALL: [Subject; 6] = [
        Subject::Archive,
        Subject::Gcc,
        Subject::Clang,
        Subject::Rust,
        Subject::Nanopb,
        Subject::ProtobufC,
    ];

    /// Those whose time is taken.
    pub const TIMED: [Subject; 3] = [Subject::Archive, Subject::Gcc, Subject::Clang];

    pub fn name(self) -> String {
        format!("{self:?}").to_lowercase()
    }

    pub fn named(name: &str) -> Option<Subject> {
        Subject::ALL
            .into_iter()
            .find(|subject| subject.name() == name)
    }

    /// The functions whose instructions count, as callgrind's patterns. nanopb's replies are cut by the archive's packet writer.
    pub fn counted(self) -> &'static [&'static str] {
        match self {
            Subject::Archive => &["pito_*"],
            Subject::Gcc => &["gcc_*"],
            Subject::Clang => &["clang_*"],
            Subject::Rust => &["plain_*"],
            Subject::Nanopb => &["nanopb_*", "pito_packet_write"],
            Subject::ProtobufC => &["pbc_*"],
        }
    }
}

/// Goes through the whole input once and gives the digest of all answers; the argument says whether
/// every byte counts in it.
pub type Work = Box<dyn FnMut(bool) -> u64>;

/// What one row measures.
pub struct Job {
    /// What the input counts as, as ("byte", 4,194,304).
    pub unit: (&'static str, u64),
    pub works: Vec<(Subject, Work)>,
}

impl Job {
    pub fn of(unit: &'static str, count: usize) -> Job {
        Job {
            unit: (unit, count as u64),
            works: Vec::new(),
        }
    }

    pub fn with(mut self, subject: Subject, work: Work) -> Job {
        self.works.push((subject, work));
        self
    }

    /// A work for each subject, of its call.
    pub fn each<C, const N: usize>(
        mut self,
        calls: [(Subject, C); N],
        work: impl Fn(C) -> Work,
    ) -> Job {
        for (subject, call) in calls {
            self.works.push((subject, work(call)));
        }
        self
    }

    pub fn subjects(&self) -> Vec<Subject> {
        self.works.iter().map(|(subject, _)| *subject).collect()
    }

    pub fn work(&mut self, subject: Subject) -> &mut Work {
        let found = self.works.iter_mut().find(|(one, _)| *one == subject);
        &mut found.expect("a subject of this row").1
    }
}

/// A line of the table.
pub struct Row {
    pub group: &'static str,
    pub name: String,
    pub make: Box<dyn Fn() -> Job>,
}

impl Row {
    pub fn new(
        group: &'static str,
        name: impl Into<String>,
        make: impl Fn() -> Job + 'static,
    ) -> Row {
        Row {
            group,
            name: name.into(),
            make: Box::new(make),
        }
    }

    /// What the row is called in the words of a run.
    pub fn key(&self) -> String {
        format!("{}: {}", self.group, self.name)
    }
}

/// An input that grows: the counts at each size show whether the work is linear.
pub struct Growth {
    pub name: String,
    /// What the sizes count.
    pub unit: &'static str,
    pub sizes: [usize; 4],
    pub make: Box<dyn Fn(usize) -> Job>,
}

/// A work that calls a loop, `module::function(arguments)`, with or without every byte in its
/// digest. Bytes that are lent to the calls are made ahead and not counted:
/// `module::function(arguments; size)` hands them over last.
#[macro_export]
macro_rules! work {
    ($module:ident::$function:ident($($argument:expr),*)) => {
        Box::new(move |whole| {
            if whole {
                $module::$function::<true>($($argument),*)
            } else {
                $module::$function::<false>($($argument),*)
            }
        })
    };
    ($module:ident::$function:ident($($argument:expr),*; $size:expr)) => {{
        let mut lent = vec![0; $size];
        work!($module::$function($($argument,)* &mut lent))
    }};
}
