//! Writing to a file by `-o`: it gets its new content as a whole, or is as it was.

mod common;

use common::{folder, run, shell, text, Run, COMMAND};
use harness::rng::Rng;
use std::fs::{self, Permissions};
use std::io::Write;
use std::os::unix::fs::{symlink, FileTypeExt, MetadataExt, PermissionsExt};
use std::path::Path;
use std::process::{Child, Command, Stdio};
use std::thread::sleep;
use std::time::{Duration, Instant};

const OLD: &str = "what was there before\n";

fn convert_to(target: &Path, input: &[u8]) -> Run {
    run(
        &[
            "convert",
            "--from",
            "csv+",
            "--to",
            "csvj",
            "-o",
            &text(target),
        ],
        input,
    )
}

/// The names in a folder, so that nothing that is left over goes unseen.
fn names(folder: &Path) -> Vec<String> {
    let entries = fs::read_dir(folder).expect("a folder");
    let mut names: Vec<String> = entries
        .map(|entry| {
            entry
                .expect("an entry")
                .file_name()
                .to_string_lossy()
                .into_owned()
        })
        .collect();
    names.sort();
    names
}

fn mode(path: &Path) -> u32 {
    fs::metadata(path).expect("a file").mode() & 0o7777
}

#[test]
fn a_new_file_is_made_as_a_shell_makes_one() {
    let folder = folder("new");
    assert_eq!(
        convert_to(&folder.join("new"), b"a\n1\n"),
        Run::new(0, "", "")
    );
    assert_eq!(
        fs::read_to_string(folder.join("new")).expect("a file"),
        "\"a\"\n\"1\"\n"
    );
    shell(
        &format!(
            "umask 027; \"$command\" convert --from 3 --to 1 -o '{0}/masked'; : >'{0}/shell'",
            text(&folder)
        ),
        b"a\n",
    );
    assert_eq!(mode(&folder.join("masked")), mode(&folder.join("shell")));
    assert_eq!(mode(&folder.join("masked")), 0o640);
    assert_eq!(names(&folder), ["masked", "new", "shell"]);
}

#[test]
fn an_old_file_is_replaced_and_keeps_its_permissions() {
    let folder = folder("permissions");
    for bits in [0o600, 0o640, 0o666, 0o755] {
        let target = folder.join("old");
        fs::write(&target, OLD).expect("a file");
        fs::set_permissions(&target, Permissions::from_mode(bits)).expect("permissions");
        let before = fs::metadata(&target).expect("a file").ino();
        assert_eq!(convert_to(&target, b"a\n1\n"), Run::new(0, "", ""));
        assert_eq!(
            fs::read_to_string(&target).expect("a file"),
            "\"a\"\n\"1\"\n"
        );
        assert_eq!(mode(&target), bits);
        assert_ne!(
            fs::metadata(&target).expect("a file").ino(),
            before,
            "it is another file, renamed"
        );
    }
    assert_eq!(names(&folder), ["old"]);
}

#[test]
fn a_refusal_leaves_the_old_file_and_no_other() {
    let folder = folder("refused");
    let target = folder.join("old");
    fs::write(&target, OLD).expect("a file");
    assert_eq!(convert_to(&target, b"a\n1\n\"2\n").status, Some(1));
    assert_eq!(
        convert_to(&folder.join("none"), b"a\n1\n\"2\n").status,
        Some(1)
    );
    assert_eq!(fs::read_to_string(&target).expect("a file"), OLD);
    assert_eq!(names(&folder), ["old"]);
}

#[test]
fn a_file_may_be_converted_in_place() {
    let target = folder("in_place").join("table");
    fs::write(&target, "a\n1\n").expect("a file");
    let path = text(&target);
    assert_eq!(
        run(
            &["convert", "--from", "csv+", "--to", "csvj", "-o", &path, &path],
            b""
        ),
        Run::new(0, "", "")
    );
    assert_eq!(
        fs::read_to_string(&target).expect("a file"),
        "\"a\"\n\"1\"\n"
    );
}

#[test]
fn a_link_stays_a_link() {
    let folder = folder("links");
    fs::create_dir(folder.join("below")).expect("a folder");
    fs::write(folder.join("below/old"), OLD).expect("a file");
    symlink("below/old", folder.join("link")).expect("a link");
    symlink("below/none", folder.join("dangling")).expect("a link");
    symlink("circle", folder.join("circle")).expect("a link");
    for (link, target) in [("link", "below/old"), ("dangling", "below/none")] {
        assert_eq!(convert_to(&folder.join(link), b"a\n"), Run::new(0, "", ""));
        assert_eq!(
            fs::read_link(folder.join(link)).expect("a link"),
            Path::new(target)
        );
        assert_eq!(
            fs::read_to_string(folder.join(target)).expect("a file"),
            "\"a\"\n"
        );
    }
    let told = convert_to(&folder.join("circle"), b"a\n");
    assert_eq!(told.status, Some(3));
    assert!(
        told.said
            .contains("circle: Too many levels of symbolic links"),
        "{}",
        told.said
    );
    assert_eq!(names(&folder.join("below")), ["none", "old"]);
}

#[test]
fn pipes_and_devices_are_written_to_as_they_are() {
    let folder = folder("devices");
    let line = format!("mkfifo '{0}/pipe' && {{ cat '{0}/pipe' & \"$command\" convert --from 3 --to 1 -o '{0}/pipe'; wait; }}", text(&folder));
    assert_eq!(shell(&line, b"a\n"), Run::new(0, "\"a\"\n", ""));
    assert!(fs::metadata(folder.join("pipe"))
        .expect("a pipe")
        .file_type()
        .is_fifo());
    assert_eq!(
        convert_to(Path::new("/dev/null"), b"a\n"),
        Run::new(0, "", "")
    );
    assert!(fs::metadata("/dev/null")
        .expect("a device")
        .file_type()
        .is_char_device());
    let full = "hemakuliwi: /dev/full: No space left on device (os error 28)\n";
    assert_eq!(
        convert_to(Path::new("/dev/full"), b"a\n"),
        Run::new(3, "", full)
    );
    assert_eq!(
        run(
            &["convert", "--from", "3", "--to", "1", "-o", "/dev/stdout"],
            b"a\n"
        ),
        Run::new(0, "\"a\"\n", "")
    );
}

#[test]
fn what_can_not_be_written_is_named_with_the_reason() {
    let folder = folder("unwritable");
    let said = |path: &Path, reason: &str| {
        Run::new(3, "", &format!("hemakuliwi: {}: {reason}\n", text(path)))
    };
    assert_eq!(
        convert_to(&folder, b"a\n"),
        said(&folder, "Is a directory (os error 21)")
    );
    let missing = folder.join("none/file");
    assert_eq!(
        convert_to(&missing, b"a\n"),
        said(&missing, "No such file or directory (os error 2)")
    );
}

#[test]
fn a_file_that_may_not_be_written_is_not_replaced() {
    let folder = folder("protected");
    let target = folder.join("old");
    fs::write(&target, OLD).expect("a file");
    fs::set_permissions(&target, Permissions::from_mode(0o444)).expect("permissions");
    fs::set_permissions(&folder, Permissions::from_mode(0o777)).expect("permissions");
    // Root may write any file, so that another has to try.
    let line = format!(
        "other=; [[ $EUID != 0 ]] || other='setpriv --reuid=65534 --regid=65534 --clear-groups'
        $other test -x \"$command\" -a -w '{0}' || exit 77
        $other \"$command\" convert --from 3 --to 1 -o '{0}/old'",
        text(&folder)
    );
    let told = shell(&line, b"a\n");
    if told.status == Some(77) {
        eprintln!("SKIPPED: root can't run the command as another here");
    } else {
        let said = format!(
            "hemakuliwi: {}: Permission denied (os error 13)\n",
            text(&target)
        );
        assert_eq!(told, Run::new(3, "", &said));
    }
    assert_eq!(fs::read_to_string(&target).expect("a file"), OLD);
    assert_eq!(names(&folder), ["old"]);
}

#[test]
fn a_disk_without_room_leaves_the_old_file_and_no_other() {
    let folder = folder("no_room");
    let target = folder.join("old");
    fs::write(&target, OLD).expect("a file");
    let table = [&b"stop,fare\n"[..], &b"Harbour,2.40\n".repeat(20_000)].concat();
    // A limit of 10 KB for each file: its signal is ignored first, so that writing fails, and then ends the command.
    for (trap, status) in [("trap '' XFSZ;", Some(3)), ("", None)] {
        let line = format!(
            "{trap} ulimit -f 10; exec \"$command\" convert --from 3 --to 1 -o '{}'",
            text(&target)
        );
        let told = shell(&line, &table);
        assert_eq!(told.status, status, "{}", told.said);
        assert!(
            status.is_none() || told.said.contains("old: File too large"),
            "{}",
            told.said
        );
        assert_eq!(fs::read_to_string(&target).expect("a file"), OLD);
        assert_eq!(names(&folder), ["old"]);
    }
}

/// Signals end it even if these tests run where they are ignored, as under nohup.
fn start(target: &Path, input: Stdio) -> Child {
    let words = ["convert", "--from", "csv+", "--to", "csvj", "-o"];
    Command::new("env")
        .args(["--default-signal=INT,TERM,HUP", COMMAND])
        .args(words)
        .arg(target)
        .stdin(input)
        .stderr(Stdio::null())
        .spawn()
        .expect("the command starts")
}

#[test]
fn a_signal_while_it_reads_leaves_nothing_behind() {
    let folder = folder("signals");
    let target = folder.join("old");
    fs::write(&target, OLD).expect("a file");
    for signal in ["INT", "TERM", "HUP", "KILL"] {
        let mut child = start(&target, Stdio::piped());
        let mut stdin = child.stdin.take().expect("a pipe");
        stdin
            .write_all(&b"stop,fare\n".repeat(10_000))
            .expect("the command reads");
        let status = Command::new("kill")
            .args(["-s", signal, &child.id().to_string()])
            .status();
        assert!(status.expect("kill starts").success());
        assert!(!child.wait().expect("an end").success());
        assert_eq!(
            fs::read_to_string(&target).expect("a file"),
            OLD,
            "{signal}"
        );
        assert_eq!(names(&folder), ["old"], "{signal}");
    }
}

#[test]
fn a_kill_at_any_time_leaves_the_old_file_or_the_new_one() {
    const KILLS: usize = 40;
    // A machine that is busy gets fewer.
    const LONGEST: Duration = Duration::from_secs(6);
    let folder = folder("kills");
    let [source, target] = ["source", "target"].map(|name| folder.join(name));
    let repeated = |header: &str, record: &str| {
        [header.as_bytes(), &record.as_bytes().repeat(100_000)].concat()
    };
    fs::write(&source, repeated("stop,fare\n", "Harbour,2.40\n")).expect("a file");
    let new = repeated("\"stop\",\"fare\"\n", "\"Harbour\",\"2.40\"\n");
    let open = || Stdio::from(fs::File::open(&source).expect("a file"));
    let began = Instant::now();
    assert!(start(&target, open()).wait().expect("an end").success());
    let mut whole = began.elapsed();
    let began = Instant::now();
    let mut rng = Rng::new(7);
    let (mut tries, mut killed, mut replaced) = (0, 0, 0);
    while killed < KILLS && began.elapsed() < LONGEST {
        fs::write(&target, OLD).expect("a file");
        let mut child = start(&target, open());
        sleep(whole.mul_f64(rng.below(1_000) as f64 / 1e3));
        child.kill().expect("a signal");
        let is_killed = child.wait().expect("an end").code().is_none();
        let content = fs::read(&target).expect("a file");
        assert!(
            content == OLD.as_bytes() || content == new,
            "a target of {} bytes",
            content.len()
        );
        tries += 1;
        if !is_killed {
            whole = whole.mul_f64(0.9);
        }
        killed += usize::from(is_killed);
        replaced += usize::from(is_killed && content == new);
    }
    let left = names(&folder).len() - 2;
    eprintln!("{killed} kills in {tries} runs, {replaced} after the target was replaced, {left} with a file left beside it");
    assert!(killed >= KILLS / 8);
    assert_eq!(convert_to(&target, b"a\n"), Run::new(0, "", ""));
}
