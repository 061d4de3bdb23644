"""Mistakes in include/ruxtajma.h, taken for the comparison alone: it must find each decoder
and each constant wrong; see run.  Rule, what is wrong, old text (must occur once), new text."""

def of(name, old, *wrong):
    """One decoder with each of these in the place of its text."""
    head = f"ruxtajma_{name}(uint64_t answer)\n{{\n    return "
    return [(0, f"{name}: {new}", f"{head}{old};", f"{head}{new};") for new in wrong]

HEADER = [
 *of("refusal", "(unsigned)(answer & 255)", "(unsigned)(answer & 15)", "(unsigned)(answer & 65535)", "(unsigned)(answer >> 8 & 255)", "0"),
 *of("inner", "(unsigned)(answer >> 8 & 255)", "(unsigned)(answer & 255)", "(unsigned)(answer >> 8)", "(unsigned)(answer >> 16 & 255)", "0"),
 *of("count", "(size_t)(answer >> 16)", "(size_t)(answer >> 8)", "(size_t)(answer >> 24)", "(size_t)(answer >> 16 & 255)", "(uint16_t)answer", "(size_t)answer"),
 *of("default", "(unsigned)(answer >> 16 & 255)", "(unsigned)(answer >> 24 & 255)", "(unsigned)(answer >> 16)", "(unsigned)(answer >> 8 & 255)", "0"),
 *of("imcr", "(unsigned)(answer >> 24 & 255)", "(unsigned)(answer >> 16 & 255)", "(unsigned)(answer >> 24)", "(unsigned)(answer >> 32 & 255)", "0"),
 *of("start", "(size_t)(answer >> 32 & 65535)", "(size_t)(answer >> 32)", "(size_t)(answer >> 32 & 255)", "(size_t)(answer >> 48)", "(size_t)(answer >> 24 & 65535)"),
 *of("length", "(size_t)(answer >> 48)", "(size_t)(answer >> 32 & 65535)", "(size_t)(answer >> 56)", "(size_t)(answer >> 40)", "(size_t)(answer >> 48 & 255)"),
 *of("pointer_address", "(uint32_t)(answer >> 32)", "(uint32_t)answer", "(uint32_t)(answer >> 24)", "(uint16_t)(answer >> 32)"),
 *of("table_address", "(uint32_t)answer", "(uint32_t)(answer >> 32)", "(uint32_t)(answer >> 8)", "(uint16_t)answer"),
 *of("base_end", "(size_t)(answer >> 16 & 65535)", "(size_t)(answer >> 32)", "(size_t)(answer >> 16)", "(size_t)(answer >> 16 & 255)", "(size_t)(answer >> 24 & 65535)"),
 *of("extended_end", "(size_t)(answer >> 32)", "(size_t)(answer >> 16 & 65535)", "(size_t)(answer >> 32 & 255)", "(size_t)(answer >> 40)", "(size_t)(answer >> 24)"),
 *of("numbered", "(size_t)(answer >> 16 & 65535)", "(size_t)(answer >> 16)", "(size_t)(answer >> 32)", "(size_t)(answer >> 16 & 127)", "(size_t)(answer >> 24 & 65535)", "0"),
 *of("used", "(size_t)(answer >> 32)", "(size_t)(answer >> 16 & 65535)", "(size_t)(answer >> 16)", "(size_t)(answer >> 32 & 127)", "(size_t)(answer >> 40)", "0"),
 *of("rows", "(size_t)(answer >> 16 & 65535)", "(size_t)(answer >> 16)", "(size_t)(answer >> 32)", "(size_t)(answer >> 16 & 255)", "(size_t)(answer >> 24 & 65535)", "0"),
 *of("book_size", "(size_t)(answer >> 32)", "(size_t)(answer >> 16 & 65535)", "(size_t)(answer >> 16)", "(size_t)(answer >> 32 & 255)", "(size_t)(answer >> 32 & 32767)", "(size_t)(answer >> 40)", "0"),
 *of("edition", "(unsigned)(answer >> 16 & 65535)", "(unsigned)(answer >> 32)", "(unsigned)(answer >> 16 & 255)", "(unsigned)(answer >> 24 & 65535)", "0"),
 *of("body_size", "(size_t)(answer >> 16 & 65535)", "(size_t)(answer >> 16)", "(size_t)(answer >> 32)", "(size_t)(answer >> 16 & 4095)", "(size_t)(answer >> 24 & 65535)", "0"),
 *of("body_start", "(size_t)(answer >> 32)", "(size_t)(answer >> 16 & 65535)", "(size_t)(answer >> 16)", "(size_t)(answer >> 32 & 255)", "(size_t)(answer >> 32 & 16383)", "(size_t)(answer >> 40)", "0"),
 *of("seen", "(unsigned)(answer >> 16 & 255)", "(unsigned)(answer >> 16)", "(unsigned)(answer >> 24 & 255)", "(unsigned)(answer >> 16 & 1)", "0"),
 *of("links", "(unsigned)(answer >> 24)", "(unsigned)(answer >> 16)", "(unsigned)(answer >> 24 & 127)", "(unsigned)(answer >> 32)", "0"),
 *[(0, f"enum {order}", "RUXTAJMA_NO, RUXTAJMA_YES, RUXTAJMA_UNDECLARED", order) for order in (
     "RUXTAJMA_YES, RUXTAJMA_NO, RUXTAJMA_UNDECLARED", "RUXTAJMA_NO, RUXTAJMA_UNDECLARED, RUXTAJMA_YES",
     "RUXTAJMA_UNDECLARED, RUXTAJMA_YES, RUXTAJMA_NO", "RUXTAJMA_NO = 1, RUXTAJMA_YES, RUXTAJMA_UNDECLARED")],
]
