//! The parser of command lines: the layout of help and usage, the words of each error with its tips, values, and
//! refused memory. What is wanted is written by hand from what clap prints.

#[allow(dead_code, unused_imports, unused_macros)]
#[path = "../std/mod.rs"]
mod rattle_std;
mod refusing;

use rattle_std::alloc::{AllocError, Global};
use rattle_std::clap::error::ErrorKind;
use rattle_std::clap::{Arg, ArgAction, ArgMatches, Command, Error, value_parser};
use refusing::{Refused, refusing};

/// A program with positional arguments, options and a flag.
fn kettle<'a>() -> Result<Command<'a>, AllocError> {
    let cups = Arg::new(Global, "CUPS").required(true).help("How many cups, 1 to 12");
    let heat = Arg::new(Global, "heat").long("heat").value_name("DEGREES");
    let strong = Arg::new(Global, "strong").long("strong").action(ArgAction::SetTrue);
    Command::new(Global, "kettle")
        .version("2.1")
        .about("Boils water,\nand makes tea of it.")
        .after_help("Example:\n  kettle 2 mint")
        .arg(cups.value_parser(value_parser!(u32).range(1..=12)))?
        .arg(Arg::new(Global, "tea").required(true).value_name("TEA").help("Which tea"))?
        .arg(Arg::new(Global, "MUG").help("In which mug"))?
        .arg(heat.value_parser(value_parser!(u32)).help("How hot the water gets;\n100 unless told"))?
        .arg(Arg::new(Global, "note").long("note").help("What to remember"))?
        .arg(strong.help("Let it draw longer"))
}

/// A program with subcommands, of which one has an option that is required.
fn garden<'a>() -> Result<Command<'a>, AllocError> {
    let seed = Arg::new(Global, "seed").long("seed").required(true);
    let plant = Command::new(Global, "plant").about("Plants something");
    let tools = Command::new(Global, "tools").subcommand(Command::new(Global, "spade"))?;
    Command::new(Global, "garden")
        .subcommand_required(true)
        .arg(Arg::new(Global, "quiet").long("quiet").action(ArgAction::SetTrue).help("Make no noise"))?
        .subcommand(Command::new(Global, "water").about("Waters the beds").arg(Arg::new(Global, "BED"))?)?
        .subcommand(plant.arg(seed.help("Which seed"))?)?
        .subcommand(tools.about("Lists the tools"))
}

type Program = fn() -> Result<Command<'static>, AllocError>;

/// Returns what a program makes of words.
fn run(program: Program, words: &'static [&'static str]) -> Result<ArgMatches<'static>, Error> {
    program()?.try_get_matches_from(words)
}

/// Returns the matches of words that a program takes.
fn matches_of(program: Program, words: &'static [&'static str]) -> ArgMatches<'static> {
    run(program, words).unwrap_or_else(|error| panic!("{words:?} give {error}"))
}

/// Returns the error of words that a program doesn't take.
fn error_of(program: Program, words: &'static [&'static str]) -> Error {
    run(program, words).expect_err("an error")
}

/// Asserts that words are a usage error that is told so.
fn assert_refused(program: Program, words: &'static [&'static str], told: &str) {
    let error = error_of(program, words);
    assert_eq!((error.kind(), error.use_stderr()), (ErrorKind::Usage, true), "{words:?}");
    let hint = "\n\nFor more information, try '--help'.\n";
    assert_eq!(error.to_string(), format!("error: {told}{hint}"), "{words:?}");
}

/// Asserts that words ask for a text.
fn assert_shown(program: Program, words: &'static [&'static str], kind: ErrorKind, text: &str) {
    let error = error_of(program, words);
    assert_eq!((error.kind(), error.use_stderr()), (kind, false), "{words:?}");
    assert_eq!(error.to_string(), text, "{words:?}");
}

const HELP_OF_KETTLE: &str = "\
Boils water,
and makes tea of it.

Usage: kettle [OPTIONS] <CUPS> <TEA> [MUG]

Arguments:
  <CUPS>  How many cups, 1 to 12
  <TEA>   Which tea
  [MUG]   In which mug

Options:
      --heat <DEGREES>  How hot the water gets;
                        100 unless told
      --note <note>     What to remember
      --strong          Let it draw longer
  -h, --help            Print help
  -V, --version         Print version

Example:
  kettle 2 mint
";

const HELP_OF_GARDEN: &str = "\
Usage: garden [OPTIONS] <COMMAND>

Commands:
  water  Waters the beds
  plant  Plants something
  tools  Lists the tools
  help   Print this message or the help of the given subcommand(s)

Options:
      --quiet  Make no noise
  -h, --help   Print help
";

const HELP_OF_PLANT: &str = "\
Plants something

Usage: garden plant --seed <seed>

Options:
      --seed <seed>  Which seed
  -h, --help         Print help
";

const HELP_OF_HELP: &str = "\
Print this message or the help of the given subcommand(s)

Usage: garden help [COMMAND]...

Arguments:
  [COMMAND]...  Print help for the subcommand(s)
";

#[test]
fn help_is_laid_out_as_clap_does() {
    for words in [&["kettle", "--help"], &["/usr/bin/kettle", "-h"], &["kettle", "-hV"]] {
        assert_shown(kettle, words, ErrorKind::DisplayHelp, HELP_OF_KETTLE);
    }
    assert_shown(kettle, &["kettle", "2", "mint", "--strong", "-h"], ErrorKind::DisplayHelp, HELP_OF_KETTLE);
    assert_shown(garden, &["garden", "--help"], ErrorKind::DisplayHelp, HELP_OF_GARDEN);
    assert_shown(garden, &["garden", "help"], ErrorKind::DisplayHelp, HELP_OF_GARDEN);
    assert_shown(garden, &["garden", "help", "plant"], ErrorKind::DisplayHelp, HELP_OF_PLANT);
    assert_shown(garden, &["garden", "plant", "-h"], ErrorKind::DisplayHelp, HELP_OF_PLANT);
    assert_shown(garden, &["garden", "help", "help"], ErrorKind::DisplayHelp, HELP_OF_HELP);
}

#[test]
fn help_on_a_subcommand_below_another_shows_the_path_to_it() {
    let help = "Usage: garden tools spade\n\nOptions:\n  -h, --help  Print help\n";
    assert_shown(garden, &["garden", "help", "tools", "spade"], ErrorKind::DisplayHelp, help);
    assert_shown(garden, &["bin/garden/", "tools", "spade", "--help"], ErrorKind::DisplayHelp, help);
}

#[test]
fn usage_is_overridden() {
    let program: Program = || Ok(garden()?.override_usage("garden [COMMAND]"));
    let error = error_of(program, &["garden"]).to_string();
    assert!(error.contains("\n\nUsage: garden [COMMAND]\n\n"), "{error}");
    assert_shown(program, &["garden", "help", "plant"], ErrorKind::DisplayHelp, HELP_OF_PLANT);
}

#[test]
fn version_is_shown_behind_the_name() {
    for words in [&["kettle", "--version"], &["boiler", "-V"], &["kettle", "-Vh"]] {
        assert_shown(kettle, words, ErrorKind::DisplayVersion, "kettle 2.1\n");
    }
    assert_refused(
        garden,
        &["garden", "--version"],
        "unexpected argument '--version' found\n\nUsage: garden [OPTIONS] <COMMAND>",
    );
}

#[test]
fn values_are_found_by_their_names() {
    let matches = matches_of(kettle, &["kettle", "--note=a=b", "+3", "--strong", "mint", "--heat", "80"]);
    assert_eq!(matches.get_str("CUPS"), Some("+3"));
    assert_eq!(matches.get_one::<u32>("CUPS"), Some(3));
    assert_eq!(matches.get_str("tea"), Some("mint"));
    assert_eq!(matches.get_one::<u32>("tea"), None);
    assert_eq!(matches.get_str("MUG"), None);
    assert_eq!(matches.get_one::<u8>("heat"), Some(80));
    assert_eq!(matches.get_str("note"), Some("a=b"));
    assert_eq!(matches.get_str("strong"), Some("true"));
    assert!(matches.subcommand().is_none());
}

#[test]
fn values_may_be_empty_or_look_like_options() {
    let matches = matches_of(kettle, &["kettle", "--note", "", "1", "-"]);
    assert_eq!((matches.get_str("note"), matches.get_str("tea")), (Some(""), Some("-")));
    let matches = matches_of(kettle, &["kettle", "--heat=-0", "1", "--", "--strong", "--"]);
    assert_eq!((matches.get_str("tea"), matches.get_str("MUG")), (Some("--strong"), Some("--")));
    assert_eq!((matches.get_one::<u32>("heat"), matches.get_str("strong")), (Some(0), None));
}

#[test]
fn subcommands_have_matches_of_their_own() {
    let matches = matches_of(garden, &["garden", "--quiet", "plant", "--seed", "water"]);
    assert_eq!(matches.get_str("quiet"), Some("true"));
    let (name, below) = matches.subcommand().expect("a subcommand");
    assert_eq!((name, below.get_str("seed"), below.get_str("quiet")), ("plant", Some("water"), None));
    let matches = matches_of(garden, &["garden", "water", "help"]);
    let bed = matches.subcommand().and_then(|(_, below)| below.get_str("BED"));
    assert_eq!(bed, Some("help"));
}

#[test]
fn wrong_values_are_refused() {
    let wrong: [(&[&str], &str); 9] = [
        (&["kettle", "x"], "invalid value 'x' for '<CUPS>': invalid digit found in string"),
        (&["kettle", ""], "invalid value '' for '<CUPS>': cannot parse integer from empty string"),
        (&["kettle", "0"], "invalid value '0' for '<CUPS>': 0 is not in 1..=12"),
        (&["kettle", "+013", "x"], "invalid value '+013' for '<CUPS>': 13 is not in 1..=12"),
        (&["kettle", "--", "-1"], "invalid value '-1' for '<CUPS>': -1 is not in 1..=12"),
        (
            &["kettle", "9223372036854775808"],
            "invalid value '9223372036854775808' for '<CUPS>': number too large to fit in target type",
        ),
        (
            &["kettle", "--heat=4294967296", "--unknown"],
            "invalid value '4294967296' for '--heat <DEGREES>': 4294967296 is not in 0..=4294967295",
        ),
        (&["kettle", "--heat"], "a value is required for '--heat <DEGREES>' but none was supplied"),
        (&["kettle", "--note", "--strong"], "a value is required for '--note <note>' but none was supplied"),
    ];
    for (words, told) in wrong {
        assert_refused(kettle, words.to_vec().leak(), told);
    }
}

#[test]
fn a_value_of_a_flag_is_refused() {
    assert_refused(
        kettle,
        &["kettle", "--note", "x", "2", "--strong=yes"],
        "unexpected value 'yes' for '--strong' found; no more were expected\n\n\
         Usage: kettle --note <note> --strong <CUPS> <TEA> [MUG]",
    );
}

#[test]
fn an_argument_given_twice_is_refused() {
    let usage = "Usage: kettle [OPTIONS] <CUPS> <TEA> [MUG]";
    let told = format!("the argument '--strong' cannot be used multiple times\n\n{usage}");
    assert_refused(kettle, &["kettle", "--strong", "--strong"], &told);
    let told = format!("the argument '--heat <DEGREES>' cannot be used multiple times\n\n{usage}");
    assert_refused(kettle, &["kettle", "--heat", "80", "--heat", "90"], &told);
}

#[test]
fn absent_arguments_are_listed() {
    assert_refused(
        kettle,
        &["kettle"],
        "the following required arguments were not provided:\n  <CUPS>\n  <TEA>\n\n\
         Usage: kettle <CUPS> <TEA> [MUG]",
    );
    assert_refused(
        kettle,
        &["kettle", "--strong", "2", "--heat=80"],
        "the following required arguments were not provided:\n  <TEA>\n\n\
         Usage: kettle --strong --heat <DEGREES> <CUPS> <TEA> [MUG]",
    );
    assert_refused(
        garden,
        &["garden", "plant"],
        "the following required arguments were not provided:\n  --seed <seed>\n\n\
         Usage: garden plant --seed <seed>",
    );
}

#[test]
fn an_absent_subcommand_is_told() {
    let told = "'garden' requires a subcommand but one was not provided\n  \
                [subcommands: water, plant, tools, help]\n\nUsage: garden [OPTIONS] <COMMAND>";
    assert_refused(garden, &["garden"], told);
    assert_refused(garden, &["garden", "--"], told);
    assert_refused(garden, &[], told);
}

#[test]
fn unknown_options_are_refused_with_a_tip() {
    let usage = "Usage: kettle [OPTIONS] <CUPS> <TEA> [MUG]";
    for word in ["-x", "-1", "--x", "---", "--é", "--"] {
        let words = if word == "--" { "--=x" } else { word };
        let told = format!(
            "unexpected argument '{word}' found\n\n  tip: to pass '{word}' as a value, use '-- {word}'\n\n{usage}"
        );
        assert_refused(kettle, vec!["kettle", words].leak(), &told);
    }
    assert_refused(
        kettle,
        &["kettle", "2", "--not", "x"],
        "unexpected argument '--not' found\n\n  tip: a similar argument exists: '--note'\n\n\
         Usage: kettle --note <note> <CUPS> <TEA> [MUG]",
    );
    assert_refused(
        kettle,
        &["kettle", "2", "x", "y", "--verzion"],
        "unexpected argument '--verzion' found\n\n  tip: a similar argument exists: '--version'\n\n\
         Usage: kettle --version <CUPS> <TEA> <MUG>",
    );
}

#[test]
fn an_option_of_a_later_subcommand_is_a_tip() {
    let usage = "Usage: garden [OPTIONS] <COMMAND>";
    let told = format!("unexpected argument '--sead' found\n\n  tip: 'plant --seed' exists\n\n{usage}");
    assert_refused(garden, &["garden", "--sead", "rose", "water", "plant"], &told);
    let told = format!("unexpected argument '--sead' found\n\n{usage}");
    assert_refused(garden, &["garden", "--sead", "rose", "water"], &told);
    assert_refused(
        garden,
        &["garden", "--quite", "plant"],
        "unexpected argument '--quite' found\n\n  tip: a similar argument exists: '--quiet'\n\n\
         Usage: garden --quiet <COMMAND>",
    );
}

#[test]
fn unknown_subcommands_are_refused_with_tips() {
    let usage = "Usage: garden [OPTIONS] <COMMAND>";
    let told = format!("unrecognized subcommand 'plan'\n\n  tip: a similar subcommand exists: 'plant'\n\n{usage}");
    assert_refused(garden, &["garden", "plan", "--seed"], &told);
    let tip = "tip: some similar subcommands exist: 'water', 'plant'";
    let told = format!("unrecognized subcommand 'planter'\n\n  {tip}\n\n{usage}");
    assert_refused(garden, &["garden", "planter"], &told);
    assert_refused(garden, &["garden", "mow"], &format!("unrecognized subcommand 'mow'\n\n{usage}"));
    assert_refused(garden, &["garden", "help", "mow"], &format!("unrecognized subcommand 'mow'\n\n{usage}"));
    let error = error_of(garden, &["garden", "help", "help", "plant"]).to_string();
    assert_eq!(error, "error: unrecognized subcommand 'plant'\n\nUsage: garden help [COMMAND]...\n");
}

#[test]
fn words_in_excess_are_refused() {
    assert_refused(
        kettle,
        &["kettle", "2", "mint", "--", "red", "--heat"],
        "unexpected argument '--heat' found\n\nUsage: kettle [OPTIONS] <CUPS> <TEA> [MUG]",
    );
    assert_refused(
        garden,
        &["garden", "--", "water"],
        "unexpected argument 'water' found\n\n  \
         tip: subcommand 'water' exists; to use it, remove the '--' before it\n\n\
         Usage: garden [OPTIONS] <COMMAND>",
    );
}

/// Refuses each request for memory in turn, until there are no more of them. Returns how many there were.
fn refuse_each(program: Program, words: &'static [&'static str]) -> usize {
    for count in 0.. {
        let (result, refused) = refusing(Refused::One, count, || run(program, words));
        if refused == 0 {
            return count;
        }
        let error = result.expect_err("an error");
        assert_eq!(error.kind(), ErrorKind::OutOfMemory, "{words:?}, request {count}");
        assert_eq!(error.to_string(), "error: out of memory\n");
    }
    unreachable!("the requests end");
}

#[test]
fn each_refused_request_for_memory_is_an_error() {
    let lines: [(Program, &[&str]); 12] = [
        (kettle, &["kettle", "2", "mint", "--strong", "--heat", "80"]),
        (kettle, &["kettle", "--help"]),
        (kettle, &["kettle", "--version"]),
        (kettle, &["kettle", "2", "--not", "x"]),
        (kettle, &["kettle", "x", "--unknown"]),
        (kettle, &["kettle", "--heat"]),
        (kettle, &["kettle"]),
        (garden, &["garden", "plant", "--seed", "rose"]),
        (garden, &["garden", "help", "plant"]),
        (garden, &["garden", "--sead", "plant"]),
        (garden, &["garden", "planter"]),
        (garden, &["garden"]),
    ];
    for (program, words) in lines {
        let count = refuse_each(program, words.to_vec().leak());
        assert!(count > 3, "{words:?} make {count} requests");
    }
}
