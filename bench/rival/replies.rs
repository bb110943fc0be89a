// The text of replies.
use crate::groups::Group;
use crate::line::Refusal;
use crate::machine::{Answer, Machine};
use crate::patterns::Pattern;
use crate::quotas::{Quota, State};
use crate::screens::{exception_of, screen_of, Screen};
use crate::templates::Template;
use crate::thresholds::{Act, Action, Cause, Entry, Threshold};
use crate::volume::{Volume, MOST_NAMES, MOST_NODES, ROOT};

// Writes the reply to the line of this number, and the acts that its command set off.
pub fn write_reply(out: &mut Vec<u8>, line: u64, reply: &Result<Answer, Refusal>, machine: &Machine) {
    write_number(out, line);
    match reply {
        Ok(answer) => {
            out.extend_from_slice(b" ok");
            write_answer(out, answer, machine);
        }
        Err(refusal) => {
            out.extend_from_slice(b" refused ");
            write_refusal(out, refusal, &machine.volume);
        }
    }
    for act in &machine.quotas.runs.acts {
        write_act(out, act, &machine.volume);
    }
    out.push(b'\n');
}

fn write_answer(out: &mut Vec<u8>, answer: &Answer, machine: &Machine) {
    let volume = &machine.volume;
    match answer {
        Answer::Done => {}
        Answer::Usage { node, used } => {
            out.extend_from_slice(b"\n  ");
            write_number(out, *used);
            out.push(b' ');
            write_path(out, *node, volume);
        }
        Answer::Reported(screen) => {
            out.extend_from_slice(b"\n  passive ");
            write_path(out, *screen, volume);
        }
        Answer::Visited { folders, scanned, used } => {
            out.extend_from_slice(b" visited ");
            write_number(out, *folders);
            out.extend_from_slice(b" of ");
            write_path(out, *scanned, volume);
            if let Some(used) = used {
                out.extend_from_slice(b" done ");
                write_number(out, *used);
            }
        }
        Answer::Quotas(folders) => {
            for folder in folders {
                let quota = quota_of(*folder, volume);
                write_quota(out, quota);
                write_path(out, *folder, volume);
                quota.thresholds.iter().for_each(|threshold| write_threshold(out, threshold));
            }
        }
        Answer::Templates => machine.templates.iter().for_each(|template| write_template(out, template)),
        Answer::Autos => machine.templates.folders().for_each(|folder| write_auto(out, folder, machine)),
        Answer::Groups => machine.groups.iter().for_each(|group| write_group(out, group)),
        Answer::Screens => {
            for folder in machine.screens.screens.iter() {
                write_screen(out, folder, screen_in(folder, volume), machine);
            }
        }
        Answer::Exceptions => {
            for folder in machine.screens.exceptions.iter() {
                out.extend_from_slice(b"\n  ");
                write_path(out, folder, volume);
                write_groups(out, exception_of(volume, folder).expect("an exception"), machine);
            }
        }
        Answer::Settings => write_settings(out, machine),
        Answer::Log => machine.quotas.runs.log.iter().for_each(|entry| write_entry(out, entry)),
    }
}

fn quota_of(folder: u32, volume: &Volume) -> &Quota {
    volume.folder(folder).quota.as_ref().expect("a quota")
}

fn screen_in(folder: u32, volume: &Volume) -> &Screen {
    screen_of(volume, folder).expect("a screen")
}

fn write_refusal(out: &mut Vec<u8>, refusal: &Refusal, volume: &Volume) {
    match refusal {
        Refusal::Named(name) => out.extend_from_slice(name.as_bytes()),
        Refusal::BadLine(column) => {
            out.extend_from_slice(b"BadLine ");
            write_number(out, *column as u64);
        }
        Refusal::Blocked(screen) => {
            out.extend_from_slice(b"ScreenBlocked ");
            write_path(out, *screen, volume);
        }
        Refusal::Exceeded { would, limit, folder } => {
            out.extend_from_slice(b"QuotaExceeded ");
            write_number(out, *would);
            out.push(b' ');
            write_number(out, *limit);
            out.push(b' ');
            write_path(out, *folder, volume);
        }
    }
}

fn write_quota(out: &mut Vec<u8>, quota: &Quota) {
    out.extend_from_slice(b"\n  ");
    write_number(out, quota.limit);
    out.extend_from_slice(type_word(quota.hard));
    match quota.state {
        State::Complete => {
            out.extend_from_slice(b"complete ");
            write_number(out, quota.used);
        }
        State::Disabled => out.extend_from_slice(b"disabled -"),
        State::Rebuilding => out.extend_from_slice(b"rebuilding -"),
    }
    out.push(b' ');
    write_number(out, quota.peak);
    out.extend_from_slice(date(quota.peak_at).as_bytes());
}

fn type_word(hard: bool) -> &'static [u8] {
    if hard {
        b" hard "
    } else {
        b" soft "
    }
}

fn write_template(out: &mut Vec<u8>, template: &Template) {
    out.extend_from_slice(b"\n  ");
    write_number(out, template.limit);
    out.extend_from_slice(type_word(template.hard));
    out.extend_from_slice(&template.name);
    template.thresholds.iter().for_each(|threshold| write_threshold(out, threshold));
}

fn write_auto(out: &mut Vec<u8>, folder: u32, machine: &Machine) {
    let auto = machine.volume.folder(folder).auto.as_ref().expect("an auto-apply quota");
    out.extend_from_slice(b"\n  ");
    write_path(out, folder, &machine.volume);
    out.extend_from_slice(b"\n    template ");
    out.extend_from_slice(&machine.templates.template(auto.template).name);
    for name in &auto.excluded {
        out.extend_from_slice(b"\n    except ");
        out.extend_from_slice(name);
    }
}

// A line for each action, or one if there is none.
fn write_threshold(out: &mut Vec<u8>, threshold: &Threshold) {
    if threshold.actions.is_empty() {
        out.extend_from_slice(b"\n    at ");
        write_number(out, threshold.percent);
    }
    for action in &threshold.actions {
        out.extend_from_slice(b"\n    at ");
        write_number(out, threshold.percent);
        write_action(out, action);
    }
}

// Its kind, minutes and text.
fn write_action(out: &mut Vec<u8>, action: &Action) {
    out.extend_from_slice(&[b' ', action.kind, b' ']);
    match action.minutes {
        Some(minutes) => write_number(out, minutes),
        None => out.extend_from_slice(b"-1"),
    }
    out.push(b' ');
    out.extend_from_slice(&action.text);
}

fn write_group(out: &mut Vec<u8>, group: &Group) {
    out.extend_from_slice(b"\n  ");
    out.extend_from_slice(&group.name);
    let mut write_all = |kind: &[u8], patterns: &[Pattern]| {
        for pattern in patterns {
            out.extend_from_slice(kind);
            out.extend_from_slice(&pattern.text);
        }
    };
    write_all(b"\n    member ", &group.members);
    write_all(b"\n    nonmember ", &group.non_members);
}

fn write_screen(out: &mut Vec<u8>, folder: u32, screen: &Screen, machine: &Machine) {
    out.extend_from_slice(if screen.active { b"\n  active " } else { b"\n  passive " });
    write_path(out, folder, &machine.volume);
    write_groups(out, &screen.groups, machine);
    for action in &screen.actions {
        out.extend_from_slice(b"\n    do");
        write_action(out, action);
    }
}

fn write_groups(out: &mut Vec<u8>, numbers: &[usize], machine: &Machine) {
    for number in numbers {
        out.extend_from_slice(b"\n    group ");
        out.extend_from_slice(&machine.groups.group(*number).name);
    }
}

fn write_settings(out: &mut Vec<u8>, machine: &Machine) {
    let (minutes, scans) = (machine.quotas.runs.run_limit, machine.scans.waiting());
    let (nodes, names) = (machine.volume.node_count(), machine.volume.name_bytes());
    out.extend_from_slice(format!("\n  runlimit {minutes}\n  scans {scans}").as_bytes());
    out.extend_from_slice(format!("\n  nodes {nodes} {MOST_NODES}\n  names {names} {MOST_NAMES}").as_bytes());
}

fn write_entry(out: &mut Vec<u8>, entry: &Entry) {
    out.extend_from_slice(b"\n ");
    out.extend_from_slice(date(entry.moment).as_bytes());
    out.extend_from_slice(match entry.cause {
        Cause::Threshold { .. } => b"quota ",
        Cause::Screen => b"screen ",
    });
    write_number(out, entry.folder as u64);
    if let Cause::Threshold { percent, .. } = entry.cause {
        out.push(b' ');
        write_number(out, percent);
    }
    out.extend_from_slice(&[b' ', entry.kind]);
}

fn write_act(out: &mut Vec<u8>, act: &Act, volume: &Volume) {
    let actions = match act.cause {
        Cause::Threshold { place, percent } => {
            out.extend_from_slice(b"\n  act quota ");
            write_number(out, percent);
            &quota_of(act.folder, volume).thresholds[place].actions
        }
        Cause::Screen => {
            out.extend_from_slice(b"\n  act screen");
            &screen_in(act.folder, volume).actions
        }
    };
    let action = &actions[act.action];
    out.extend_from_slice(&[b' ', action.kind, b' ']);
    write_path(out, act.folder, volume);
    out.push(b'|');
    out.extend_from_slice(&action.text);
}

fn write_number(out: &mut Vec<u8>, number: u64) {
    let (mut digits, mut at, mut rest) = ([b'0'; 20], 20, number);
    while rest != 0 || at == 20 {
        at -= 1;
        digits[at] = b'0' + (rest % 10) as u8;
        rest /= 10;
    }
    out.extend_from_slice(&digits[at..]);
}

fn write_path(out: &mut Vec<u8>, number: u32, volume: &Volume) {
    let way: Vec<u32> = volume.way_up(number, ROOT).collect();
    out.extend_from_slice(if way.is_empty() { b"D:\\" } else { b"D:" });
    for number in way.iter().rev() {
        out.push(b'\\');
        out.extend_from_slice(volume.name(volume.node(*number)));
    }
}

// Years are counted from a first of March, so that a day that is put in is the last of its year.
fn date(moment: u32) -> String {
    let (days, second) = (moment / 86_400 + 719_468, moment % 86_400);
    let (era, day) = (days / 146_097, days % 146_097);
    let year = (day - day / 1_460 + day / 36_524 - day / 146_096) / 365;
    let day = day - (365 * year + year / 4 - year / 100);
    let month = (5 * day + 2) / 153;
    let day = day - (153 * month + 2) / 5 + 1;
    let (month, next) = if month < 10 { (month + 3, 0) } else { (month - 9, 1) };
    let (hour, minute, second) = (second / 3_600, second / 60 % 60, second % 60);
    format!(" {:04}-{month:02}-{day:02} {hour:02}:{minute:02}:{second:02} ", 400 * era + year + next)
}
