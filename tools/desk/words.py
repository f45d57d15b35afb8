"""What the words of a log mean, for people who have not read the rules. docs/SPECIFICATION.md has the rules, docs/WHY-IT-GAVE-UP.md the verdicts."""

ANSWERS = {
    "uncovered": "the far history does not reach back as far as this frame needs; nothing is decided on it",
    "ahead": "too much of the far audio of this frame has not arrived yet; nothing is decided on it",
    "quiet": "the loudspeaker was silent; there is no echo to look for",
    "flat": "the microphone's level did not change; there is nothing to compare",
    "banked": "compared, and kept for the decision, which takes four frames; the peak says how well the best delay fits (1 is perfect)",
    "weak": "a decision: no delay fits well enough (at least 0.25 is asked)",
    "ceiling": "a decision: the best delay lies at the longest one that is searched, or past it",
    "crowded": "a decision: another delay fits nearly as well, so none is the clear winner",
    "region": "a decision: the echo is found, at this delay, to about 1 ms; the scan rests until a rearm",
}
VERDICTS = {
    "hold": "the alignment is kept",
    "move": "the delay has changed, two candidates agree, and the alignment follows to this delay",
}
TRIGGERS = {
    "edge": "gives up: three candidates at the end of the range, so the delay has probably left it",
    "lost": "gives up: eight cycles in a row heard no usable echo",
    "jump": "gives up: the candidates contradict each other",
    "seam": "gives up: the stream was cut, and four cycles in a row could not confirm the delay since",
}
SILENT = {
    "rearm": "the host starts the search again; this has no line in the log",
    "discard_near": "the host drops the near audio under way, because it was cut; this has no line in the log",
    "discontinuity": "the stream was cut, and suspicion is on from here; this has no line in the log",
}
REFUSALS = {
    1: "a setting outside the table",
    2: "a buffer of the wrong length",
    3: "a broken state",
    4: "a sample that is no finite number",
    5: "an index, delay or count that is too large",
    6: "a full frame waits",
    7: "no frame is full",
}
CLOSINGS = {
    "end": "the whole recording was replayed",
    "bad header": "the recording's header cannot be used; nothing was replayed",
    "bad event": "an event of the recording cannot be used, or its samples are missing; the replay stopped before it",
    "bad totals": "all events were replayed, but they used fewer samples than the header announces",
}
REASONS = {
    "unconfident": "the cycle heard too little of an echo to name any delay",
    "interior": "the candidate stood clear of both ends of the range that was searched, so it can be believed",
    "edge candidate": "the best match stood at one end of that range, so the true delay may lie outside it",
    "bands": "from 4 ms below the alignment to 48 ms above it: inside them the alignment still fits",
    "pending": "waits for a second candidate, at most 24 ms away, to confirm it",
    "contradiction": "candidates that cannot both be right",
    "suspicion": "on from a cut until a candidate inside the bands or a move: the alignment is given up sooner",
}
CUT_OFF = "the log stops here, without a closing line"
REFUSED = "a call of this event was refused: the rest of the event was dropped, and the replay went on"
MEANINGS = {**ANSWERS, **VERDICTS, **TRIGGERS, **SILENT, "refused": REFUSED, **CLOSINGS}
