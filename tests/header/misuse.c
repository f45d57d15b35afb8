/* What a compiler must complain of in a program over trimolaveg_typed.h. WRONG chooses one; with WRONG 0 the program is right. */
#include "trimolaveg_typed.h"

static TMV_SCAN_KEPT(48000, 500) kept;
static TMV_SCAN_SCRATCH(48000, 500) scratch;
static struct tmv_scan scan = TMV_SCAN_OVER(kept, scratch);

int main(void)
{
    struct tmv_frame frame;
    bool finished = false;

    if (tmvt_scan_new(&scan, 48000, 500) || tmvt_scan_observe(&scan, &frame))
        return 1;
    switch (frame.kind) {
    case TMVT_FRAME_UNCOVERED:
    case TMVT_FRAME_AHEAD:
    case TMVT_FRAME_QUIET:
    case TMVT_FRAME_FLAT:
    case TMVT_FRAME_BANKED:
    case TMVT_FRAME_WEAK:
    case TMVT_FRAME_CEILING:
#if WRONG != 1 /* a case is forgotten */
    case TMVT_FRAME_CROWDED:
#endif
    case TMVT_FRAME_REGION:
        break;
    }
#if WRONG == 2 /* an answer of one family is held against another's */
    if (frame.kind == TMVT_VERDICT_HOLD)
        return 1;
#elif WRONG == 3 /* an answer is taken for the flag that it tells of */
    if (tmvt_scan_finished(&scan))
        return 0;
#elif WRONG == 4 /* a refusal is not looked at */
    tmvt_scan_rearm(&scan);
#elif WRONG == 5 /* a refusal is taken for an answer */
    if (tmvt_scan_finished(&scan, &finished) == TMVT_FRAME_UNCOVERED)
        return 1;
#elif WRONG == 6 /* memory for a setting outside the table */
    static TMV_SCAN_KEPT(48000, 4001) none;
    (void)none;
#elif WRONG == 7 /* memory for a setting that the panel's profile does not allow */
    static TMV_PANEL_KEPT(48000, 320) none;
    (void)none;
#elif WRONG == 8 /* a panel is taken for a scan */
    static TMV_PANEL_KEPT(16000, 320) narrow;
    static struct tmv_panel panel = TMV_PANEL_OVER(narrow, scratch);
    if (tmvt_scan_rearm(&panel))
        return 1;
#endif
    return tmvt_scan_finished(&scan, &finished) || finished;
}
