//! The deadline on a page: its verdict at the head, and the figures in microseconds.

use crate::deadline_words::{beside, clock, limits, reason, rows, verdict as word};
use crate::due::Due;
use crate::markup::escaped;
use crate::page_html::Told;
use crate::page_totals::soft;
use crate::time::column;

/// The verdict, to be seen first.
pub fn verdict(due: &Told<Due>) -> String {
    match due {
        Ok(due) => {
            let class = if due.met() { "met" } else { "not-met" };
            let beside: String = beside(due)
                .iter()
                .map(|sentence| format!(" {}", escaped(sentence)))
                .collect();
            format!(
                "<p class=\"verdict {class}\"><strong>{}</strong> {}.{beside}</p>\n",
                word(due).0,
                escaped(&reason(due))
            )
        }
        Err(lack) => format!(
            "<p class=\"verdict unsaid\">No verdict on a deadline: {}.</p>\n",
            escaped(&lack.words())
        ),
    }
}

/// Each cost in cycles and in microseconds.
pub fn figures(due: &Due) -> String {
    let all = rows(due);
    let times = column(&all.iter().map(|(_, _, figure)| *figure).collect::<Vec<_>>());
    let rows: String = all
        .iter()
        .zip(times)
        .map(|((name, cycles, _), time)| {
            format!("<tr><td>{name}</td><td class=\"number\">{cycles}</td><td class=\"number\">{time}</td></tr>\n")
        })
        .collect();
    let sentences: String = due.sentences.iter().map(|sentence| soft(sentence)).collect();
    format!(
        "<p>Deadline: {}, which is <b>{}</b>. Here {}.</p>\n<table class=\"small\">\n\
         <thead><tr><th></th><th class=\"number\">cycles</th><th class=\"number\">us</th></tr></thead>\n\
         <tbody>\n{rows}</tbody></table>\n{sentences}",
        escaped(&limits(&due.limits)),
        word(due).0,
        escaped(&clock(due))
    )
}
