//! What lines do at a box, by name, so that a run that never did one of them is
//! no success.

use support::counts::{Counts, Name};
use twin::frames::{self, LONGEST_TEXT};
use twin::message::Message;
use twin::record::{Node, CANDIDATE, FOLLOWER, LEADER};
use twin::session::Running;

/// A line with the box before and after it, and what was said.
pub struct Taken<'a> {
    pub line: &'a [u8],
    pub before: &'a Running,
    pub answer: &'a [u8],
    pub after: &'a Running,
}

/// The refusals that a line after the head can get.
const REFUSALS: [u64; 9] = [1, 2, 3, 4, 6, 7, 8, 9, 13];

/// Six appends of four entries and the line of one entry.
const LONGEST: usize = 6 * LONGEST_TEXT + 47;

const WANTED: [&str; 45] = [
    "said_nothing",
    "said_line",
    "said_messages",
    "said_line_and_messages",
    "said_longest",
    "term_above_255",
    "stands",
    "stands_again",
    "stands_when_voted",
    "won_alone_with_blank",
    "timeout_of_leader",
    "election_won_with_blank",
    "election_won_over_older_entries",
    "election_won_with_full_log",
    "vote_counted",
    "vote_answer_no",
    "vote_answer_late",
    "leader_steps_down",
    "candidate_overtaken",
    "candidate_follows",
    "voted",
    "voted_again",
    "voted_not",
    "request_of_lower_term",
    "append_of_lower_term",
    "append_refused",
    "append_empty",
    "append_adds",
    "append_adds_zeros",
    "append_cuts",
    "append_old_cuts_nothing",
    "append_commits",
    "answer_commits",
    "answer_commits_older_too",
    "answer_steps_back",
    "answer_at_match",
    "answer_sends_more",
    "answer_late",
    "order_commits_alone",
    "order_255",
    "zeros_at_follower",
    "zeros_at_candidate",
    "zeros_at_leader",
    "zeros_with_full_log",
    "prompt_brings_up",
];

pub fn wanted() -> Vec<Name> {
    let mut names: Vec<Name> = WANTED.map(|name| (name, None)).to_vec();
    names.extend(REFUSALS.map(|refusal| ("n", Some(refusal))));
    names
}

/// The entries that both logs begin with.
fn common(one: &Running, other: &Running) -> usize {
    let last = one.node.last.min(other.node.last) as usize;
    let entry = |running: &Running, place: usize| (running.terms[place], running.orders[place]);
    let same = |place: &usize| entry(one, *place) == entry(other, *place);
    (0..last).take_while(same).count()
}

pub fn count(taken: &Taken, counts: &mut Counts) {
    if let [b'n', digits @ .., b'\n'] = taken.answer {
        let digits = std::str::from_utf8(digits).expect("digits");
        counts.add_of("n", digits.parse().expect("a number"));
        if taken.line == b"o0000000000000000\n" {
            zeros(&taken.before.node, counts);
        }
        return;
    }
    let (before, after) = (&taken.before.node, &taken.after.node);
    let writes = taken.answer.starts_with(b"0110");
    let line = match taken.answer.iter().position(|&byte| byte == b'\n') {
        Some(place) if writes => place + 1,
        _ => 0,
    };
    let sends = taken.answer.len() > line;
    counts.add_each(&[
        (!writes && !sends, "said_nothing"),
        (writes && !sends, "said_line"),
        (!writes && sends, "said_messages"),
        (writes && sends, "said_line_and_messages"),
        (taken.answer.len() == LONGEST, "said_longest"),
        (after.term > 255, "term_above_255"),
    ]);
    match taken.line {
        b"t\n" => timeout(before, after, counts),
        b"p\n" => counts.add_each(&[(taken.answer.len() > 6 * 35, "prompt_brings_up")]),
        [b'o', ..] => counts.add_each(&[
            (after.commit > before.commit, "order_commits_alone"),
            (before.last == 255, "order_255"),
        ]),
        frame => received(&frames::read(frame).expect("a frame"), taken, counts),
    }
}

fn zeros(before: &Node, counts: &mut Counts) {
    let leads = before.role == LEADER;
    counts.add_each(&[
        (before.role == FOLLOWER, "zeros_at_follower"),
        (before.role == CANDIDATE, "zeros_at_candidate"),
        (leads, "zeros_at_leader"),
        (leads && before.last == 256, "zeros_with_full_log"),
    ]);
}

fn timeout(before: &Node, after: &Node, counts: &mut Counts) {
    let stands = after.role == CANDIDATE;
    counts.add_each(&[
        (stands && before.role == FOLLOWER, "stands"),
        (stands && before.role == CANDIDATE, "stands_again"),
        (
            stands && ![0, after.me].contains(&before.vote),
            "stands_when_voted",
        ),
        (
            before.role == FOLLOWER && after.role == LEADER && after.last > before.last,
            "won_alone_with_blank",
        ),
        (before.role == LEADER, "timeout_of_leader"),
    ]);
}

fn received(message: &Message, taken: &Taken, counts: &mut Counts) {
    let (before, after) = (&taken.before.node, &taken.after.node);
    let raised = after.term > before.term;
    counts.add_each(&[
        (raised && before.role == LEADER, "leader_steps_down"),
        (raised && before.role == CANDIDATE, "candidate_overtaken"),
    ]);
    match *message {
        Message::VoteRequest { term, .. } => {
            let yes = taken.answer.ends_with(b"01\n");
            let voted = after.vote != before.vote;
            counts.add_each(&[
                (yes && (voted || raised), "voted"),
                (yes && !voted && !raised, "voted_again"),
                (!yes && term == after.term, "voted_not"),
                (term < before.term, "request_of_lower_term"),
            ]);
        }
        Message::VoteAnswer { term, yes, .. } => {
            let won = after.role == LEADER && before.role == CANDIDATE;
            let blank = after.last > before.last;
            counts.add_each(&[
                (won && blank, "election_won_with_blank"),
                (
                    won && blank && before.commit < before.last,
                    "election_won_over_older_entries",
                ),
                (won && !blank, "election_won_with_full_log"),
                (
                    after.votes != before.votes && after.role == CANDIDATE,
                    "vote_counted",
                ),
                (
                    yes == 0 && before.role == CANDIDATE && !raised,
                    "vote_answer_no",
                ),
                (term < before.term, "vote_answer_late"),
            ]);
        }
        Message::Append {
            term,
            previous_index,
            count,
            ..
        } => {
            let yes = &taken.answer[taken.answer.len() - 7..][..2] == b"01";
            let end = previous_index + u16::from(count);
            let kept = common(taken.before, taken.after);
            let adds = usize::from(after.last) > kept;
            let cuts = usize::from(before.last) > kept;
            let added = kept..usize::from(after.last);
            let zeros = taken.after.orders[added].contains(&0);
            counts.add_each(&[
                (
                    before.role == CANDIDATE && !raised && term == after.term,
                    "candidate_follows",
                ),
                (term < before.term, "append_of_lower_term"),
                (!yes && term == after.term, "append_refused"),
                (yes && count == 0, "append_empty"),
                (adds && !cuts, "append_adds"),
                (zeros, "append_adds_zeros"),
                (cuts, "append_cuts"),
                (
                    yes && count > 0 && !adds && end < after.last,
                    "append_old_cuts_nothing",
                ),
                (after.commit > before.commit, "append_commits"),
            ]);
        }
        Message::AppendAnswer {
            from, term, yes, ..
        } => {
            let place = usize::from(from - 1);
            let (was, is) = (before.next[place], after.next[place]);
            let leads = after.role == LEADER && term == after.term;
            let commits = leads && after.commit > before.commit;
            let older = || taken.after.terms[usize::from(before.commit)] < after.term;
            counts.add_each(&[
                (commits, "answer_commits"),
                (commits && older(), "answer_commits_older_too"),
                (leads && yes == 0 && is < was, "answer_steps_back"),
                (leads && yes == 0 && is == was, "answer_at_match"),
                (
                    leads && yes == 1 && !taken.answer.is_empty(),
                    "answer_sends_more",
                ),
                (term < before.term, "answer_late"),
            ]);
        }
    }
}
