// Stand-in for the crate regex, so that trim.rs builds. It is never reached:
// the only patterns used, `\s` and `[\r\n]`, are handled before it.

pub struct Regex;

pub struct Match;

impl Regex {
  pub fn new(pattern: &str) -> Result<Self, String> {
    panic!("the pattern {pattern} needs a real regular expression")
  }

  pub fn find(&self, _text: &str) -> Option<Match> {
    None
  }
}

impl Match {
  pub fn start(&self) -> usize {
    0
  }

  pub fn end(&self) -> usize {
    0
  }
}
