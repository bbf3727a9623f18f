//! The desk: charts in words, answers in words.
//!
//! Ordinary Rust over the wrapper, and so over the proved functions: it never works out an age, a class, a total, a bound or a byte of a
//! chart itself. A text becomes a chart by the proved writer, and is read back before it is used. What a cost comes to in microseconds it does
//! work out, exactly, and has totals judged by the proved function too.
//!
//! From a text to a chart: [`lexer`], [`parse`], [`draft`], [`resolve`], [`made`]; what is wrong with it: [`problem`], [`refused`]. What numbers
//! there are is [`asked`] of the writer. [`known`] is a chart as the commands get it: [`report`], [`totals`], [`why`], [`texted`].
//!
//! From facts to bounds: [`fact`], [`flow`], [`lp`], [`solver`], [`fractions`], [`potentials`], and [`certify`], which asks the proved function;
//! what a bound rests on, and what that is worth: [`rests`], [`weights`].
//!
//! From costs to a verdict: [`time`], [`due`], [`deadline`]. All of a chart on one page: [`page_html`] and those beside it.
//! From a chart to a picture: [`plan`], [`dot_source`], [`dot`], [`laid`], [`picture`]; how it looks: [`look`], [`outline`], [`caption`], [`legend`].
//! From two charts to what differs: [`compare`], [`matched`]; which lines cause it: [`statements`], [`differing`], [`causes`].

pub mod again;
pub mod ages;
pub mod alone;
pub mod answer;
pub mod args;
pub mod arriving;
pub mod asked;
pub mod astray;
pub mod before;
pub mod bounded;
pub mod cache;
pub mod caption;
pub mod causes;
pub mod certify;
pub mod changed;
pub mod child;
pub mod compare;
pub mod compare_json;
pub mod compare_lines;
pub mod compare_totals;
pub mod compare_versions;
pub mod compare_words;
pub mod counted;
pub mod deadline;
pub mod deadline_json;
pub mod deadline_words;
pub mod differing;
pub mod dot;
pub mod dot_source;
pub mod draft;
pub mod draw;
pub mod due;
pub mod expect;
pub mod explained;
pub mod fact;
pub mod fact_faults;
pub mod facts_json;
pub mod facts_words;
pub mod far;
pub mod figure;
pub mod findings;
pub mod flow;
pub mod fractions;
pub mod given;
pub mod help;
pub mod input;
pub mod json;
pub mod known;
pub mod lack;
pub mod laid;
pub mod legend;
pub mod lettering;
pub mod lexer;
pub mod loads;
pub mod look;
pub mod loose;
pub mod lp;
pub mod made;
pub mod markup;
pub mod matched;
pub mod misgiven;
pub mod near;
pub mod number;
pub mod outline;
pub mod page;
pub mod page_assured;
pub mod page_due;
pub mod page_facts;
pub mod page_html;
pub mod page_nodes;
pub mod page_picture;
pub mod page_sets;
pub mod page_shares;
pub mod page_totals;
pub mod paint;
pub mod parse;
pub mod parse_cache;
pub mod parse_clock;
pub mod parse_fact;
pub mod parse_node;
pub mod parse_time;
pub mod picture;
pub mod plan;
pub mod potentials;
pub mod problem;
pub mod reference;
pub mod refused;
pub mod report;
pub mod resolve;
pub mod rests;
pub mod run;
pub mod sets;
pub mod sha256;
pub mod shape;
pub mod shares;
pub mod since;
pub mod solution;
pub mod solver;
pub mod source;
pub mod spline;
pub mod statements;
pub mod summary;
pub mod table;
pub mod texted;
pub mod time;
pub mod totals;
pub mod totals_json;
pub mod totals_table;
pub mod totals_words;
pub mod touches;
pub mod trouble;
pub mod unwalked;
pub mod weights;
pub mod weights_table;
pub mod why;
pub mod why_arrows;
pub mod why_json;
pub mod why_kept;
pub mod why_since;
pub mod why_words;
pub mod words;
pub mod written;
