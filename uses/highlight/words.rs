//! The words of the command.
use std::ffi::OsString;

pub const HELP: &str = "Shows YAML files in colours, in the terminal or as a page of HTML.
Without FILE, or if FILE is -, it reads standard input.

      --html     write a page
  -h, --help     print this
      --version  print the version

In the terminal there are no colours if the variable NO_COLOR has a value.

The exit status is 0; 1 when a file has a fault; 2 when the words are wrong; 3 when a file can
not be read, the output can not be written or memory is refused.
";

/// What the words ask for.
#[derive(Debug, PartialEq, Eq)]
pub enum Asked {
    Help,
    Version,
    /// To show these files, as a page or in the terminal.
    Show { names: Vec<OsString>, is_page: bool },
}

/// What the words ask for, or what is wrong with them. After `--` no word is an option, and `-` is none.
pub fn asked(words: impl Iterator<Item = OsString>) -> Result<Asked, String> {
    let (mut names, mut is_page, mut is_option) = (Vec::new(), false, true);
    for word in words {
        let text = word.to_string_lossy();
        match text.as_ref() {
            "--" if is_option => is_option = false,
            "--html" if is_option => is_page = true,
            "-h" | "--help" if is_option => return Ok(Asked::Help),
            "--version" if is_option => return Ok(Asked::Version),
            wrong if is_option && wrong.starts_with('-') && wrong != "-" => {
                return Err(format!("unrecognized option '{wrong}'"));
            }
            _ => names.push(word),
        }
    }
    Ok(Asked::Show { names, is_page })
}
