//! Who is held to the laws.

use cases::{Case, Seen};
use ours::{Call, Driver, served};

pub trait Server {
    /// What is seen of each of these calls.
    fn serve(&mut self, calls: &[Case]) -> Result<Vec<Seen>, String>;
}

/// Our archive.
pub struct Ours(pub Driver);

impl Server for Ours {
    fn serve(&mut self, calls: &[Case]) -> Result<Vec<Seen>, String> {
        let requests: Vec<Call> = calls.iter().map(Call::request).collect();
        let requests: Vec<&Call> = requests.iter().collect();
        let answers = self.0.answers(&requests)?;
        let seen = answers.into_iter().zip(calls).map(|(answer, call)| {
            let seen = answer.and_then(|answer| served(&answer));
            seen.map_err(|trouble| format!("{trouble}\n{call}"))
        });
        seen.collect()
    }
}

/// The independent reading: it says whether a law is document 01's.
pub struct Document;

impl Server for Document {
    fn serve(&mut self, calls: &[Case]) -> Result<Vec<Seen>, String> {
        Ok(calls.iter().map(Case::document).collect())
    }
}
