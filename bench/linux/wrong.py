"""Wrong kernels: each changes one line of the unpacked source, or the same words of two, and has to be noticed.

Of Linux's text this names a function and the few words that are changed in it."""

import re

from building import Trouble


class Edit:
    """Puts other words for some, in one function of a file, or in all of it."""

    def __init__(self, file, function, old, new):
        self.file, self.function, self.old, self.new = file, function, old, new

    def applied(self, text):
        begin, end = self.bounds(text)
        edited, count = re.subn(self.old, self.new, text[begin:end])
        if count != 1:
            raise Trouble(f"{self.file}: {self.old} stands {count} times in {self.function}, and not once")
        return text[:begin] + edited + text[end:]

    def bounds(self, text):
        """Where the function is defined: from its name to the brace that ends it."""
        defined = re.search(rf"^\w[^\n;]*\b{self.function}\([^;]*?\n{{\n.*?^}}", text, re.M | re.S)
        if not defined:
            raise Trouble(f"{self.file} has no function {self.function}")
        return defined.span()


def tree(function, old, new):
    return Edit("kernel/rcu/srcutree.c", function, old, new)


def numbers(function, old, new):
    return Edit("kernel/rcu/rcu.h", function, old, new)


def segments(function, old, new):
    return Edit("kernel/rcu/rcu_segcblist.c", function, old, new)


def chain(function, old, new):
    return Edit("kernel/notifier.c", function, old, new)


WITHOUT_ONE = [
    tree(f"srcu_readers_{kind}_idx", r"sum \+= (.*);", r"sum += (cpu != 1) * (\1);") for kind in ("lock", "unlock")
]

# What is wrong, and the edits.
WRONG = {
    "no flip": [tree("srcu_flip", r"->srcu_idx \+ 1\)", "->srcu_idx + 2)")],
    "sums swapped: locks are summed first": [
        tree(
            "srcu_readers_active_idx_check",
            r"unlocks = srcu_readers_unlock_idx\(ssp, idx\);",
            "unlocks = srcu_readers_lock_idx(ssp, idx); return unlocks == srcu_readers_unlock_idx(ssp, idx);",
        )
    ],
    "one scan: the first left out": [tree("srcu_advance_state", r"!try_check_zero\(ssp, idx, 1\)", "0")],
    "one scan: the second left out": [tree("srcu_advance_state", r"!try_check_zero\(ssp, idx, 2\)", "0")],
    "the scans' index is that of new sections": [tree("srcu_advance_state", r"(== SRCU_STATE_SCAN1\) {\s*idx =) 1 \^ ", r"\1 ")],
    "one processor left out of the sums": WITHOUT_ONE,
    "the index taken before the look": [
        tree("__srcu_read_lock", r"idx = (READ_ONCE.*);", r"static int old; idx = old; old = \1;"),
    ],
    "the index of a section is looked up again behind its count": [
        tree("__srcu_read_lock", r"return idx;", "return READ_ONCE(ssp->srcu_idx) & 0x1;"),
    ],
    "an unlock on the opener's processor": [
        tree("__srcu_read_unlock", r"this_cpu_inc\(", "shim_cpu = shim_opener; this_cpu_inc("),
    ],
    "list's advance left out of a call": [tree("srcu_gp_start_if_needed", r"\brcu_segcblist_advance\((?=&)", "(void)(")],
    "list's advance left out of a run": [tree("srcu_invoke_callbacks", r"\brcu_segcblist_advance\((?=&)", "(void)(")],
    "callbacks a period early": [tree("srcu_invoke_callbacks", r"(rcu_seq_current\(.*?srcu_gp_seq\))\);", r"\1 + 4);")],
    "a callback joins the last segment, whatever its number": [
        segments("rcu_segcblist_accelerate", r"ULONG_CMP_LT\(rsclp->gp_seq\[i\], seq\)", "0"),
    ],
    "a snap that adds 4": [numbers("rcu_seq_snap", r"return s;", "return s + 4;")],
    "the cookie of the running period": [numbers("rcu_seq_snap", r"2 \* RCU_SEQ_STATE_MASK", "RCU_SEQ_STATE_MASK")],
    "a poll that is always true": [tree("poll_state_synchronize_srcu", r"return false;", "return true;")],
    "a leaf that forgets its second processor": [
        tree("srcu_funnel_gp_start", r"(if )\(snp == snp_leaf && snp_seq == s\)", r"\1(0)"),
    ],
    "a barrier that skips a processor": [
        tree("srcu_barrier", r"(srcu_barrier_one_cpu\(ssp, per_cpu_ptr\(ssp->sda, cpu\)\);)", r"if (cpu) \1"),
    ],
    "a batch that runs while another is out": [tree("srcu_invoke_callbacks", r"sdp->srcu_cblist_invoking \|\|", "0 ||")],
    "a handler before those of its own priority": [
        chain("notifier_chain_register", r"n->priority > \(\*nl\)->priority", "n->priority >= (*nl)->priority"),
    ],
    "a chain that does not stop": [chain("notifier_call_chain", r"ret & NOTIFY_STOP_MASK", "0")],
    "a chain whose answer is the first one": [chain("notifier_call_chain", r"ret = (nb->notifier_call)", r"ret |= \1")],
}
