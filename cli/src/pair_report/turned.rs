//! Whether a clip that is the wrong way round would show, in a sentence. It is of exact reading and of
//! symbols that come as they were written; what it says of coded ones is proved.

use super::pair::Pair;
use crate::facts::Facts;

pub struct Turned {
    pub sentence: String,
    /// No refusal shows it: that must not be missed.
    pub bold: bool,
}

pub fn turned(pair: &Pair) -> Turned {
    let Some(facts) = &pair.tables else {
        return plain(
            "The log names no table set, so it is not known whether a symbol would be refused if a \
             clip is the wrong way round."
                .to_string(),
        );
    };
    let refuses =
        "refuses a symbol that comes as it was written, but turned (a clip the wrong way \
                   round), because";
    let Facts { coded, loaded, .. } = facts;
    if facts.trellis {
        return plain(format!("Exact reading {refuses} N = {loaded} is odd."));
    }
    if facts.monitored() == 0 {
        return unseen(facts);
    }
    let tones = facts.monitored_words();
    let proved = if *coded {
        ""
    } else {
        "; uncoded, this is not proved"
    };
    plain(format!(
        "Exact reading with the writer's register {refuses} {tones}{proved}."
    ))
}

fn plain(sentence: String) -> Turned {
    Turned {
        sentence,
        bold: false,
    }
}

fn unseen(facts: &Facts) -> Turned {
    let rest = if facts.coded {
        ": a symbol that comes as it was written, but turned, is read as another frame, so only wrong \
         bits show it"
    } else {
        "; uncoded, nothing is promised of a turned symbol"
    };
    let reason = facts.unshown_words();
    Turned {
        sentence: format!(
            "This table set cannot show by a refusal that a clip is the wrong way round, because \
             {reason}{rest}."
        ),
        bold: true,
    }
}
