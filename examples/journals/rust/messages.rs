//! Requests and replies, whose texts are those of a journal.
use crate::STATE;
use std::fmt::{self, Display, Formatter};

/// Keys that are set, each with its value.
#[derive(Clone, PartialEq)]
pub struct Batch(pub Vec<(String, String)>);

#[derive(Clone, PartialEq)]
pub struct Push {
    pub batch: Batch,
    pub known: u64,
    pub prev: u64,
    pub version: u64,
}

pub enum Ask {
    Push(Push),
    Lock,
    Peek { after: u64, most: usize },
    Pop { through: u64 },
    Next { proxy: u64, request: u64 },
    Read { ballot: u64 },
}

pub enum Tell {
    Held(u64),
    Stopped,
    Stale,
    Gap(u64),
    Removed(u64),
    Locked(String),
    Peeked { after: u64, known: u64, records: Vec<(u64, Batch)>, upto: u64 },
    Popped(u64),
    Numbered { prev: u64, request: u64, version: u64 },
    Promise,
}

pub fn list<T>(its: &[T], text: impl Fn(&T) -> String) -> String {
    format!("[{}]", its.iter().map(text).collect::<Vec<_>>().join(","))
}

impl Display for Batch {
    fn fmt(&self, f: &mut Formatter) -> fmt::Result {
        f.write_str(&list(&self.0, |(key, value)| format!(r#"{{"set":{{"key":"{key}","value":"{value}"}}}}"#)))
    }
}

impl Display for Ask {
    fn fmt(&self, f: &mut Formatter) -> fmt::Result {
        match self {
            Ask::Push(Push { batch, known, prev, version }) => {
                write!(f, r#"{{"log":{{"push":{{"bodies":[[0,{batch}]],"epoch":257,"known":{known},"mark":null,"#)?;
                write!(f, r#""prev":{prev},"version":{version}}}}}}}"#)
            }
            Ask::Lock => write!(f, r#"{{"log":{{"lock":{{"epoch":257}}}}}}"#),
            Ask::Peek { after, most } => {
                write!(f, r#"{{"log":{{"peek":{{"after":{after},"epoch":257,"most":{most},"tag":0}}}}}}"#)
            }
            Ask::Pop { through } => write!(f, r#"{{"log":{{"pop":{{"epoch":257,"tag":0,"through":{through}}}}}}}"#),
            Ask::Next { proxy, request } => {
                write!(f, r#"{{"seq":{{"next":{{"proxy":{proxy},"request":{request},"step":1}}}}}}"#)
            }
            Ask::Read { ballot } => write!(f, r#"{{"cell":{{"read":{{"ballot":{ballot}}}}}}}"#),
        }
    }
}

impl Display for Tell {
    fn fmt(&self, f: &mut Formatter) -> fmt::Result {
        let refused = |why: String| format!(r#"{{"refused":{{"why":{{{why}}}}}}}"#);
        let text = match self {
            Tell::Held(version) => format!(r#"{{"held":{{"version":{version}}}}}"#),
            Tell::Stopped => refused(r#""stopped":{}"#.into()),
            Tell::Stale => refused(r#""stale":{}"#.into()),
            Tell::Gap(durable) => refused(format!(r#""gap":{{"durable":{durable}}}"#)),
            Tell::Removed(through) => refused(format!(r#""removed":{{"through":{through}}}"#)),
            Tell::Locked(its) => format!(r#"{{"locked":{{{its}}}}}"#),
            Tell::Peeked { after, known, records, upto } => {
                let its = list(records, |(at, batch)| format!(r#"{{"batch":{batch},"version":{at}}}"#));
                let its = format!(r#""after":{after},"known":{known},"records":{its},"tag":0,"upto":{upto}"#);
                format!(r#"{{"peeked":{{{its}}}}}"#)
            }
            Tell::Popped(through) => format!(r#"{{"popped":{{"through":{through}}}}}"#),
            Tell::Numbered { prev, request, version } => {
                let its = format!(r#""prev":{prev},"request":{request},"version":{version}"#);
                return write!(f, r#"{{"seq":{{"numbered":{{{its}}}}}}}"#);
            }
            Tell::Promise => return write!(f, r#"{{"cell":{{"promise":{{"value":"{STATE}","written":257}}}}}}"#),
        };
        write!(f, r#"{{"log":{text}}}"#)
    }
}
