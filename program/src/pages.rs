//! The manual page and the completions, made from the program's own help.
use crate::args::Call;
use clap::{Arg, Command, CommandFactory};
use clap_complete::Shell;

/// What man reads: the help of the program and of each of its commands.
pub fn manual() -> Vec<u8> {
    let mut call = Call::command();
    call.build();
    let mut page = String::from(".TH YALIVUCU 1 \"\" \"yalivucu\" \"User commands\"\n.SH NAME\n");
    page += &format!("yalivucu \\- {}\n.SH SYNOPSIS\n", text(&about(&call)));
    for command in commands(&call) {
        page += &format!(".B {}\n.br\n", text(&usage(command)));
    }
    page += &format!(".SH DESCRIPTION\n{}\n.SH COMMANDS\n", paragraphs(&long_about(&call)));
    for command in commands(&call) {
        page += &format!(".SS {}\n{}\n", text(&usage(command)), paragraphs(&long_about(command)));
        for argument in command.get_arguments().filter(|argument| !argument.is_hide_set()) {
            page += &entry(argument);
        }
    }
    page += ".SH EXIT STATUS\n0 done, 1 refused or \"no\", 2 a wrong call; after a signal that signal.\n";
    page.into_bytes()
}

/// The commands, but for help.
fn commands(call: &Command) -> impl Iterator<Item = &Command> {
    call.get_subcommands().filter(|command| command.get_name() != "help")
}

/// How a command is called, in one line.
fn usage(command: &Command) -> String {
    let mut command = command.clone();
    let usage = command.render_usage().to_string();
    usage.trim_start_matches("Usage:").split_whitespace().collect::<Vec<_>>().join(" ")
}

fn about(command: &Command) -> String {
    command.get_about().map(ToString::to_string).unwrap_or_default()
}

fn long_about(command: &Command) -> String {
    command.get_long_about().map_or_else(|| about(command), ToString::to_string)
}

/// An argument: its name, and its help with what it may be.
fn entry(argument: &Arg) -> String {
    let values: Vec<String> = argument
        .get_possible_values()
        .iter()
        .filter(|_| argument.get_action().takes_values())
        .map(|value| value.get_name().to_owned())
        .collect();
    let mut help = argument.get_help().map(ToString::to_string).unwrap_or_default();
    if !values.is_empty() {
        help += &format!(" ({})", values.join(", "));
    }
    let short = argument.get_short().map(|short| format!("-{short}, ")).unwrap_or_default();
    format!(".TP\n.B {}\n{}\n", text(&format!("{short}{argument}")), text(&help))
}

/// Text in which nothing is a command of man's.
fn text(plain: &str) -> String {
    let escaped = plain.replace('\\', "\\e").replace('-', "\\-");
    if escaped.starts_with(['.', '\'']) {
        format!("\\&{escaped}")
    } else {
        escaped
    }
}

fn paragraphs(plain: &str) -> String {
    let lines: Vec<String> =
        plain.lines().map(|line| if line.is_empty() { ".PP".to_owned() } else { text(line) }).collect();
    lines.join("\n")
}

/// The completions for a shell.
pub fn completions(shell: Shell) -> Vec<u8> {
    let mut bytes = Vec::new();
    clap_complete::generate(shell, &mut Call::command(), "yalivucu", &mut bytes);
    bytes
}
